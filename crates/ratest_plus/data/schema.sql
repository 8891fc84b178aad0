CREATE TABLE student (name TEXT PRIMARY KEY, major TEXT);
CREATE TABLE reg (name TEXT REFERENCES student, course INTEGER, dept TEXT, grade INTEGER, PRIMARY KEY (name, course));
