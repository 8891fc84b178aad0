-- Wrong: the cheapest of all bars.
SELECT s.bar, s.beer FROM serves s
WHERE s.price IS NOT NULL AND NOT EXISTS (SELECT * FROM serves t WHERE t.price < s.price)
