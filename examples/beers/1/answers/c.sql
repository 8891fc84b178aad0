-- Wrong: the inner query doesn't look at the bar.
SELECT f.drinker FROM frequents f
WHERE EXISTS (SELECT * FROM serves s, likes l WHERE s.beer = l.beer AND l.drinker = f.drinker)
