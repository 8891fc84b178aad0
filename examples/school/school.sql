-- A small school, to be read by `sqlite3 school.db`.
CREATE TABLE student (
  id INTEGER PRIMARY KEY,
  name VARCHAR(30) NOT NULL CONSTRAINT named CHECK (length(name) > 1),
  born DATE,
  points REAL
);
CREATE TABLE reg (
  student INTEGER REFERENCES student,
  course VARCHAR(10),
  grade INT CHECK (grade BETWEEN 1 AND 6),
  PRIMARY KEY (student, course)
);
INSERT INTO student VALUES (1, 'Mary', '2004-05-17', 1.5), (2, 'John', '2003-11-02', 2.5), (3, 'O''Neill, Ann', NULL, 0.5);
INSERT INTO reg VALUES (1, 'databases', 1), (1, 'logic', 5), (2, 'logic', NULL), (3, 'databases', 2);
