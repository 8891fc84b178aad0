-- Wrong: there is a bar in another city.
SELECT d.name FROM drinker d, bar b
WHERE d.city <> b.city
