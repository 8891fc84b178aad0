SELECT s.name FROM student s, reg r WHERE s.name = r.name AND r.dept = 'CS'
EXCEPT
SELECT s.name FROM student s, reg r1, reg r2
WHERE s.name = r1.name AND s.name = r2.name AND r1.course <> r2.course AND r1.dept = 'CS' AND r2.dept = 'CS'
