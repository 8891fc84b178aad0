-- 1,500 more students, and what they take: rows for `classroom pick`, the same each time.
WITH RECURSIVE n (k) AS (SELECT 3 UNION ALL SELECT k + 1 FROM n WHERE k < 1502)
INSERT INTO student (id, name, born) SELECT k + 1, 'Student ' || (k % 1200),
  CASE WHEN k % 7 = 0 THEN NULL ELSE date('2000-01-01', (k * 37 % 2000) || ' days') END FROM n;
WITH RECURSIVE n (k) AS (SELECT 0 UNION ALL SELECT k + 1 FROM n WHERE k < 2999)
INSERT INTO reg (student, course, grade) SELECT 4 + k * 7 % 1499, 'C' || (k * 5 % 11),
  CASE WHEN k % 13 = 0 THEN NULL ELSE 1 + k / 7 % 6 END FROM n WHERE true ON CONFLICT DO NOTHING;
