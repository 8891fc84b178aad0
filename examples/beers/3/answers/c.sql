-- Wrong: a beer that differs may be another bar's.
SELECT bar FROM serves EXCEPT
SELECT s.bar FROM serves s, serves t WHERE s.beer <> t.beer
