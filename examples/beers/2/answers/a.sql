-- Wrong: NOT IN is never true where a bar's city is NULL, nor for a drinker whose city is.
SELECT name FROM drinker
WHERE city NOT IN (SELECT city FROM bar)
