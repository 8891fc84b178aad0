-- The cheapest beers of each bar; a beer without a price is none.
SELECT s.bar, s.beer FROM serves s
WHERE s.price IS NOT NULL AND NOT EXISTS (SELECT * FROM serves t WHERE t.bar = s.bar AND t.price < s.price)
