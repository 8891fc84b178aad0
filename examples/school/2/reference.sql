-- How many courses each student takes, also who takes none.
SELECT name, COUNT(course) FROM student LEFT JOIN reg ON student = id GROUP BY id, name
