-- Wrong: some beer.
SELECT l.drinker FROM likes l, serves s
WHERE s.bar = 'Joe''s' AND l.beer = s.beer
