-- Bars that serve exactly one beer.
SELECT bar FROM serves EXCEPT
SELECT s.bar FROM serves s, serves t WHERE s.bar = t.bar AND s.beer <> t.beer
