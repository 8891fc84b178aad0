SELECT s.name FROM student s, reg r WHERE s.name = r.name AND r.dept = 'CS'
