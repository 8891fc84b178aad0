SELECT name, (SELECT COUNT(*) FROM reg WHERE student = id) FROM student
