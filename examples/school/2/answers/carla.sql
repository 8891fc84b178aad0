-- Who takes no course is missing.
SELECT name, COUNT(course) FROM student JOIN reg ON student = id GROUP BY id, name
