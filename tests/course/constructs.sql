-- Students and their exams, for sqlite3 and for psql.
CREATE TABLE student (id INTEGER PRIMARY KEY, name VARCHAR(20) NOT NULL, city VARCHAR(20), born DATE);
CREATE TABLE course (code VARCHAR(4) PRIMARY KEY, title VARCHAR(30) NOT NULL, credits INTEGER, needs VARCHAR(4) REFERENCES course);
CREATE TABLE exam (student INTEGER NOT NULL REFERENCES student, course VARCHAR(4) NOT NULL REFERENCES course, day DATE NOT NULL,
  grade INTEGER, fee NUMERIC(6,2), PRIMARY KEY (student, course));
INSERT INTO student VALUES (1, 'Ann', 'Vik', '2001-03-01'), (2, 'Bo', 'Sund', '2000-01-31'), (3, 'Cleo', 'Vik', NULL), (4, 'Dag', NULL, '1999-12-30');
INSERT INTO course VALUES ('m1', 'Sets', 5, NULL), ('m2', 'Graphs', 5, 'm1'), ('d1', 'Databases', 10, 'm1'), ('d2', 'Queries', NULL, 'd1');
INSERT INTO exam VALUES (1, 'm1', '2024-01-20', 2, 12.50), (1, 'd1', '2024-07-01', 1, 20), (2, 'm1', '2024-01-20', 5, 12.50),
  (2, 'm2', '2024-02-03', NULL, NULL), (3, 'm1', '2024-07-01', 3, 7.25), (3, 'd1', '2024-07-01', 3, 20);
