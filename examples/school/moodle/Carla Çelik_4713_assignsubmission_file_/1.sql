SELECT DISTINCT name FROM student JOIN reg ON student = id WHERE NOT grade > 4
