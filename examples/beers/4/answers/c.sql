-- Wrong: each beer of every bar.
SELECT name FROM drinker EXCEPT
SELECT d.name FROM drinker d, serves s
WHERE s.beer NOT IN (SELECT l.beer FROM likes l WHERE l.drinker = d.name)
