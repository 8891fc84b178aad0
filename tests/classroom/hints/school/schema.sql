CREATE TABLE teacher (id INTEGER PRIMARY KEY, name TEXT, room TEXT);
CREATE TABLE student (id INTEGER PRIMARY KEY, name TEXT, year INTEGER, advisor INTEGER REFERENCES teacher);
CREATE TABLE course (id INTEGER PRIMARY KEY, title TEXT UNIQUE, credits INTEGER, teacher INTEGER REFERENCES teacher);
CREATE TABLE enrolled (student INTEGER REFERENCES student, course INTEGER REFERENCES course, grade INTEGER CHECK (grade BETWEEN 1 AND 5), PRIMARY KEY (student, course));
CREATE TABLE prerequisite (course INTEGER REFERENCES course, needs INTEGER REFERENCES course, PRIMARY KEY (course, needs));
