-- Wrong: other prices, not other beers.
SELECT bar FROM serves EXCEPT
SELECT s.bar FROM serves s, serves t WHERE s.bar = t.bar AND s.price <> t.price
