-- Students who have no grade above 4.
SELECT name FROM student WHERE NOT EXISTS (SELECT * FROM reg WHERE student = id AND grade > 4)
