SELECT s.name FROM student s, reg r WHERE s.id = r.student AND r.grade <= 4
