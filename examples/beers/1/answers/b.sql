-- Wrong: the beer is served in any bar.
SELECT f.drinker FROM frequents f, serves s, likes l
WHERE s.beer = l.beer AND l.drinker = f.drinker
