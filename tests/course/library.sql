-- A town's library, for sqlite3.
CREATE TABLE author (id INTEGER PRIMARY KEY, name TEXT NOT NULL, country TEXT);
CREATE TABLE book (
  isbn TEXT PRIMARY KEY, title TEXT NOT NULL, author INTEGER NOT NULL REFERENCES author, genre TEXT,
  pages INTEGER, price DECIMAL(6,2), CHECK (price > 0));
CREATE TABLE copy (id INTEGER PRIMARY KEY, isbn TEXT NOT NULL REFERENCES book, shelf TEXT);
CREATE TABLE member (id INTEGER PRIMARY KEY, name TEXT NOT NULL, town TEXT, born DATE);
CREATE TABLE loan (
  id INTEGER PRIMARY KEY, copy INTEGER NOT NULL REFERENCES copy, member INTEGER NOT NULL REFERENCES member,
  out DATE NOT NULL, back DATE);
INSERT INTO author VALUES (1, 'Ida Lund', 'Norway'), (2, 'Omar Reyes', 'Chile'), (3, 'Wren Hale', NULL), (4, 'Jun Mori', 'Japan'),
  (5, 'Nils Berg', 'Norway');
INSERT INTO book VALUES
  ('b01', 'The Tide', 1, 'novel', 320, 12.5), ('b02', 'The Quarry', 1, 'crime', 410, 9), ('b03', 'Salt', 2, 'novel', 180, 8),
  ('b04', 'Ropes and Knots', 3, 'craft', 296, 15.75), ('b05', 'Winter in The Harbour', 2, 'novel', NULL, 12.5),
  ('b06', 'Maps', 4, 'travel', 240, NULL), ('b07', 'The Lamp', 4, 'crime', 400, 9), ('b08', 'Bread', 3, 'craft', 150, 15.75),
  ('b09', 'Low Water', 5, 'crime', 512, 7), ('b10', 'Letters', 2, NULL, 77, 5.25), ('b11', 'Night Train', 5, 'novel', 260, NULL);
INSERT INTO copy VALUES (1, 'b01', 'A'), (2, 'b01', 'A'), (3, 'b02', 'B'), (4, 'b03', 'A'), (5, 'b04', NULL), (6, 'b05', 'C'),
  (7, 'b06', 'B'), (8, 'b07', 'B'), (9, 'b08', 'C'), (10, 'b09', 'B'), (11, 'b03', 'C');
INSERT INTO member VALUES (1, 'Ann', 'Vik', '1990-03-01'), (2, 'Bo', 'Vik', '1990-01-01'), (3, 'Cleo', 'Sund', '1985-07-19'),
  (4, 'Dag', NULL, '2001-12-30'), (5, 'Eva', 'Sund', NULL), (6, 'Fay', 'Nes', '1990-12-31'), (7, 'Gus', 'Vik', '1979-05-05'),
  (8, 'Ida Lund', 'Nes', '1966-02-11');
INSERT INTO loan VALUES
  (1, 1, 1, '2024-01-02', '2024-01-16'), (2, 3, 1, '2024-01-02', '2024-02-20'), (3, 4, 2, '2024-01-05', NULL),
  (4, 8, 2, '2024-01-20', '2024-01-29'), (5, 2, 3, '2024-02-01', '2024-02-15'), (6, 10, 3, '2024-02-01', '2024-03-10'),
  (7, 3, 3, '2024-02-25', NULL), (8, 9, 4, '2024-03-01', '2024-03-02'), (9, 1, 6, '2024-03-03', '2024-03-18'),
  (10, 6, 6, '2024-03-03', NULL), (11, 8, 6, '2024-03-20', '2024-04-03'), (12, 11, 7, '2024-03-21', '2024-03-30'),
  (13, 1, 7, '2024-04-01', NULL), (14, 7, 1, '2024-04-02', '2024-04-30'), (15, 10, 2, '2024-04-05', NULL);
CREATE VIEW lent AS SELECT c.isbn, l.member, l.out, l.back FROM loan l JOIN copy c ON c.id = l.copy;
