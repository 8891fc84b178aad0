-- Wrong: likes any beer at all.
SELECT name FROM drinker EXCEPT
SELECT d.name FROM drinker d, serves s
WHERE s.bar = 'Joe''s' AND NOT EXISTS (SELECT * FROM likes l WHERE l.drinker = d.name)
