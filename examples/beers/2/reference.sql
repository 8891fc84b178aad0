-- Drinkers in whose city there is no bar; who has no known city counts.
SELECT d.name FROM drinker d
WHERE NOT EXISTS (SELECT * FROM bar b WHERE b.city = d.city)
