-- A small railway, for psql.
CREATE TABLE station (code char(3) PRIMARY KEY, name text NOT NULL, zone integer, opened date);
CREATE TABLE line (id integer PRIMARY KEY, name text NOT NULL UNIQUE, electric boolean);
CREATE TABLE stop (line integer REFERENCES line, station char(3) REFERENCES station, pos integer NOT NULL, PRIMARY KEY (line, station));
CREATE TABLE train (no integer PRIMARY KEY, line integer NOT NULL REFERENCES line, leaves time NOT NULL, seats integer);
CREATE TABLE ticket (id integer PRIMARY KEY, train integer NOT NULL REFERENCES train, day date NOT NULL, price numeric(6,2),
  class text CHECK (class IN ('first', 'second')));
INSERT INTO station VALUES ('ABO', 'Abbot Oak', 1, '1901-05-01'), ('BRI', 'Bridge', 1, '1899-12-31'), ('CAS', 'Castle', 2, NULL),
  ('DOC', 'Docks', 2, '1950-06-15'), ('ELM', 'Elm Bridge', 3, '1999-12-31'), ('FEN', 'Fen', NULL, '2000-01-01'), ('GAT', 'Gate', 3, '1950-01-01');
INSERT INTO line VALUES (1, 'coast', true), (2, 'hill', false), (3, 'loop', NULL), (4, 'old', false);
INSERT INTO stop VALUES (1, 'ABO', 1), (1, 'BRI', 2), (1, 'DOC', 3), (2, 'BRI', 1), (2, 'CAS', 2), (2, 'ELM', 3), (3, 'ABO', 1),
  (3, 'CAS', 2), (3, 'GAT', 3), (3, 'BRI', 4);
INSERT INTO train VALUES (11, 1, '06:30', 200), (12, 1, '12:00', 150), (13, 1, '18:15', NULL), (21, 2, '07:00', 80), (22, 2, '12:00', 80),
  (31, 3, '09:45', 120), (32, 3, '23:50', 150);
INSERT INTO ticket VALUES (1, 11, '2024-05-01', 10, 'first'), (2, 11, '2024-05-01', 5.5, 'second'), (3, 11, '2024-05-02', 5.5, 'second'),
  (4, 12, '2024-05-02', NULL, 'second'), (5, 12, '2024-05-03', 12.5, 'first'), (6, 21, '2024-05-01', 7.25, NULL), (7, 21, '2024-05-06', 7, 'second'),
  (8, 31, '2024-05-06', 3, 'second'), (9, 31, '2024-06-01', 3, 'second'), (10, 32, '2024-06-02', 20, 'first'), (11, 13, '2024-06-02', 6, 'second'),
  (12, 22, '2024-05-31', 10, 'first'), (13, 13, '2024-05-12', 8, 'second');
CREATE VIEW service AS SELECT t.no, l.name AS line, t.leaves, t.seats FROM train t JOIN line l ON l.id = t.line;
