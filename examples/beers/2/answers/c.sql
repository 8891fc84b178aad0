-- Wrong: the city of a bar that the drinker goes to.
SELECT name FROM drinker EXCEPT
SELECT f.drinker FROM frequents f, bar b, drinker d
WHERE f.drinker = d.name AND f.bar = b.name AND b.city = d.city
