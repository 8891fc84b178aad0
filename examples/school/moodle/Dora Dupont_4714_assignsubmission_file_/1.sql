SELECT name FROM student GROUP BY name HAVING max(grade) <= 4
