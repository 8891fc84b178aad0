-- Who takes no course is counted once.
SELECT name, COUNT(*) FROM student LEFT JOIN reg ON student = id GROUP BY id, name
