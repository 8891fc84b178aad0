-- Wrong: somebody likes the beer, not the drinker.
SELECT f.drinker FROM frequents f, serves s, likes l
WHERE f.bar = s.bar AND s.beer = l.beer
