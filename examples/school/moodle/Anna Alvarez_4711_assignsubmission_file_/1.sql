SELECT name FROM student WHERE id NOT IN (SELECT student FROM reg WHERE grade > 4)
