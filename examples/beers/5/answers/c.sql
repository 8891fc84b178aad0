-- Wrong: a beer without a price has none below it.
SELECT s.bar, s.beer FROM serves s
WHERE NOT EXISTS (SELECT * FROM serves t WHERE t.bar = s.bar AND t.price < s.price)
