-- Drinkers who go to a bar that serves a beer they like.
SELECT f.drinker FROM frequents f, serves s, likes l
WHERE f.bar = s.bar AND s.beer = l.beer AND l.drinker = f.drinker
