"""Twenty tasks over the library with four answers each, and what each should get."""
from __future__ import annotations

RIGHT, WRONG, ORDER, ERROR = "right", "wrong", "order", "error"
# What another database reads, and this one doesn't.
FOREIGN = "foreign"
LENT = "loan l JOIN copy c ON c.id = l.copy"

TASKS = [
    (
        (
            "SELECT m.name, COUNT(l.id) FROM member m LEFT JOIN loan l ON l.member = m.id GROUP BY"
            " m.id, m.name"
        ),
        [
            ("SELECT name, (SELECT COUNT(*) FROM loan WHERE member = m.id) FROM member m", RIGHT),
            (
                (
                    "SELECT m.name, COUNT(*) FROM member m LEFT JOIN loan l ON l.member = m.id"
                    " GROUP BY m.id, m.name"
                ),
                WRONG,
            ),
            (
                (
                    "SELECT m.name, COUNT(l.id) FROM member m JOIN loan l ON l.member = m.id GROUP"
                    " BY m.id, m.name"
                ),
                WRONG,
            ),
            (
                (
                    "SELECT m.name, COUNT(l.id) FROM member m LEFT JOIN loan l ON l.members = m.id"
                    " GROUP BY m.id"
                ),
                ERROR,
            ),
        ],
    ),
    (
        "SELECT genre, AVG(price) FROM book GROUP BY genre",
        [
            ("SELECT genre, SUM(price) * 1.0 / COUNT(price) FROM book GROUP BY genre", RIGHT),
            ("SELECT genre, SUM(price) / COUNT(price) FROM book GROUP BY genre", WRONG),
            ("SELECT genre, SUM(price) * 1.0 / COUNT(*) FROM book GROUP BY genre", WRONG),
            ("SELECT genre, AVG(DISTINCT price) FROM book GROUP BY genre", WRONG),
        ],
    ),
    (
        "SELECT genre FROM book GROUP BY genre HAVING COUNT(*) >= 3",
        [
            ("SELECT genre FROM book GROUP BY genre HAVING COUNT(isbn) > 2", RIGHT),
            ("SELECT genre FROM book GROUP BY genre HAVING COUNT(*) > 3", WRONG),
            (
                (
                    "SELECT genre FROM (SELECT genre, COUNT(*) AS n FROM book GROUP BY genre) x"
                    " WHERE n >= 3"
                ),
                RIGHT,
            ),
            ("SELECT genre FROM book WHERE COUNT(*) >= 3 GROUP BY genre", ERROR),
        ],
    ),
    (
        (
            "SELECT m.name FROM member m WHERE NOT EXISTS (SELECT * FROM book b WHERE b.author = 1"
            f" AND NOT EXISTS (SELECT * FROM {LENT} WHERE l.member = m.id AND c.isbn = b.isbn))"
        ),
        [
            (
                (
                    "SELECT name FROM member m WHERE NOT EXISTS (SELECT isbn FROM book WHERE"
                    f" author = 1 EXCEPT SELECT c.isbn FROM {LENT} WHERE l.member = m.id)"
                ),
                RIGHT,
            ),
            # Where there is no such book at all everybody has borrowed all of them.
            (
                (
                    "SELECT m.name FROM member m JOIN loan l ON l.member = m.id JOIN copy c ON"
                    " c.id = l.copy JOIN book b ON b.isbn = c.isbn WHERE b.author = 1 GROUP BY"
                    " m.id, m.name HAVING COUNT(DISTINCT b.isbn) = (SELECT COUNT(*) FROM book"
                    " WHERE author = 1)"
                ),
                WRONG,
            ),
            (
                (
                    f"SELECT DISTINCT m.name FROM member m, {LENT} JOIN book b ON b.isbn = c.isbn"
                    " WHERE l.member = m.id AND b.author = 1"
                ),
                WRONG,
            ),
            (
                (
                    "SELECT m.name FROM member m WHERE NOT EXISTS (SELECT * FROM book b WHERE"
                    f" b.author = 1 AND NOT EXISTS (SELECT * FROM {LENT} WHERE c.isbn = b.isbn))"
                ),
                WRONG,
            ),
        ],
    ),
    (
        (
            f"SELECT b.title FROM book b LEFT JOIN (SELECT c.isbn FROM {LENT}) x ON x.isbn = b.isbn"
            " WHERE x.isbn IS NULL"
        ),
        [
            (
                (
                    f"SELECT title FROM book b WHERE NOT EXISTS (SELECT * FROM {LENT} WHERE c.isbn"
                    " = b.isbn)"
                ),
                RIGHT,
            ),
            (f"SELECT title FROM book WHERE isbn NOT IN (SELECT c.isbn FROM {LENT})", RIGHT),
            (
                (
                    "SELECT b.title FROM book b LEFT JOIN copy c ON c.isbn = b.isbn WHERE c.isbn IS"
                    " NULL"
                ),
                WRONG,
            ),
            ("SELECT title FROM book WHERE isbn NOT IN (SELECT copy FROM loan)", WRONG),
        ],
    ),
    (
        "SELECT member, MAX(out) FROM loan GROUP BY member",
        [
            (
                (
                    "SELECT DISTINCT member, out FROM loan l WHERE NOT EXISTS (SELECT * FROM loan k"
                    " WHERE k.member = l.member AND k.out > l.out)"
                ),
                RIGHT,
            ),
            ("SELECT member, MAX(back) FROM loan GROUP BY member", WRONG),
            ("SELECT member, MIN(out) FROM loan GROUP BY member", WRONG),
            ("SELECT member, out FROM loan GROUP BY member", ORDER),
        ],
    ),
    (
        "SELECT name FROM member WHERE strftime('%Y', born) = '1990'",
        [
            ("SELECT name FROM member WHERE born LIKE '1990-%'", RIGHT),
            ("SELECT name FROM member WHERE born >= '1990-01-01' AND born < '1991-01-01'", RIGHT),
            ("SELECT name FROM member WHERE born > '1990-01-01' AND born < '1991-01-01'", WRONG),
            ("SELECT name FROM member WHERE strftime('%Y', born) = 1990", WRONG),
        ],
    ),
    (
        "SELECT title FROM book WHERE title LIKE 'The %'",
        [
            ("SELECT title FROM book WHERE substr(title, 1, 4) = 'The '", RIGHT),
            ("SELECT title FROM book WHERE title LIKE '%The%'", WRONG),
            ("SELECT title FROM book WHERE title GLOB 'The *'", RIGHT),
            ("SELECT title FROM book WHERE title = 'The %'", WRONG),
        ],
    ),
    (
        "SELECT title FROM book ORDER BY price DESC, isbn LIMIT 3",
        [
            (
                (
                    "SELECT title FROM (SELECT title, row_number() OVER (ORDER BY price DESC, isbn)"
                    " AS n FROM book) x WHERE n <= 3"
                ),
                RIGHT,
            ),
            ("SELECT title FROM book ORDER BY price DESC LIMIT 3", ORDER),
            ("SELECT title FROM book ORDER BY price, isbn LIMIT 3", WRONG),
            ("SELECT title FROM book ORDER BY price DESC, isbn LIMIT 4", WRONG),
        ],
    ),
    (
        (
            "SELECT genre, title FROM book b WHERE price = (SELECT MAX(price) FROM book c WHERE"
            " c.genre = b.genre)"
        ),
        [
            (
                (
                    "SELECT genre, title FROM (SELECT genre, title, rank() OVER (PARTITION BY genre"
                    " ORDER BY price DESC) AS r FROM book WHERE price IS NOT NULL AND genre IS NOT"
                    " NULL) x WHERE r = 1"
                ),
                RIGHT,
            ),
            (
                (
                    "SELECT b.genre, b.title FROM book b JOIN (SELECT genre, MAX(price) AS p FROM"
                    " book GROUP BY genre) x ON x.genre = b.genre AND x.p = b.price"
                ),
                RIGHT,
            ),
            ("SELECT genre, title FROM book WHERE price = (SELECT MAX(price) FROM book)", WRONG),
            (
                (
                    "SELECT genre, title FROM (SELECT genre, title, row_number() OVER (PARTITION BY"
                    " genre ORDER BY price DESC) AS r FROM book WHERE price IS NOT NULL AND genre"
                    " IS NOT NULL) x WHERE r = 1"
                ),
                ORDER,
            ),
        ],
    ),
    (
        "SELECT DISTINCT town FROM member WHERE town IS NOT NULL",
        [
            ("SELECT town FROM member WHERE town IS NOT NULL", RIGHT),
            ("SELECT town FROM member GROUP BY town HAVING town IS NOT NULL", RIGHT),
            ("SELECT DISTINCT town FROM member", WRONG),
            ("SELECT DISTINCT town FROM member WHERE town = NULL", WRONG),
        ],
    ),
    (
        "SELECT name FROM member UNION SELECT name FROM author",
        [
            ("SELECT name FROM member UNION ALL SELECT name FROM author", RIGHT),
            ("SELECT name FROM member INTERSECT SELECT name FROM author", WRONG),
            ("SELECT m.name FROM member m, author a WHERE m.name = a.name", WRONG),
            ("SELECT name FROM member UNION SELECT name, country FROM author", ERROR),
        ],
    ),
    (
        "SELECT id FROM loan WHERE julianday(back) - julianday(out) > 14",
        [
            ("SELECT id FROM loan WHERE back > date(out, '+14 days')", RIGHT),
            ("SELECT id FROM loan WHERE julianday(back) - julianday(out) >= 14", WRONG),
            (
                "SELECT id FROM loan WHERE back IS NULL OR julianday(back) - julianday(out) > 14",
                WRONG,
            ),
            (
                "SELECT id FROM loan WHERE strftime('%s', back) - strftime('%s', out) > 14 * 86400",
                RIGHT,
            ),
        ],
    ),
    (
        (
            "SELECT town, COUNT(*) FROM loan JOIN member ON member.id = loan.member WHERE back IS"
            " NULL GROUP BY town"
        ),
        [
            (
                (
                    "SELECT town, SUM(back IS NULL) FROM loan JOIN member ON member.id ="
                    " loan.member GROUP BY town HAVING SUM(back IS NULL) > 0"
                ),
                RIGHT,
            ),
            (
                (
                    "SELECT town, SUM(back IS NULL) FROM loan JOIN member ON member.id ="
                    " loan.member GROUP BY town"
                ),
                WRONG,
            ),
            (
                (
                    "SELECT town, COUNT(*) FROM loan JOIN member ON member.id = loan.member WHERE"
                    " back = NULL GROUP BY town"
                ),
                WRONG,
            ),
            (
                (
                    "SELECT town, COUNT(back) FROM loan JOIN member ON member.id = loan.member"
                    " WHERE back IS NULL GROUP BY town"
                ),
                WRONG,
            ),
        ],
    ),
    (
        "SELECT title, CASE WHEN pages > 400 THEN 'thick' ELSE 'thin' END FROM book",
        [
            ("SELECT title, iif(pages > 400, 'thick', 'thin') FROM book", RIGHT),
            ("SELECT title, CASE WHEN pages >= 400 THEN 'thick' ELSE 'thin' END FROM book", WRONG),
            (
                (
                    "SELECT title, CASE WHEN pages > 400 THEN 'thick' WHEN pages <= 400 THEN 'thin'"
                    " END FROM book"
                ),
                WRONG,
            ),
            (
                (
                    "SELECT title, 'thick' FROM book WHERE pages > 400 UNION ALL SELECT title,"
                    " 'thin' FROM book WHERE coalesce(pages, 0) <= 400"
                ),
                RIGHT,
            ),
        ],
    ),
    (
        (
            "SELECT a.country, COUNT(*) FROM author a JOIN book b ON b.author = a.id WHERE"
            " a.country IS NOT NULL GROUP BY a.country HAVING AVG(b.pages) > 250"
        ),
        [
            (
                (
                    "SELECT country, n FROM (SELECT a.country, COUNT(*) AS n, AVG(b.pages) AS p"
                    " FROM author a, book b WHERE b.author = a.id GROUP BY a.country) x WHERE p >"
                    " 250 AND country IS NOT NULL"
                ),
                RIGHT,
            ),
            (
                (
                    "SELECT a.country, COUNT(*) FROM author a JOIN book b ON b.author = a.id WHERE"
                    " a.country IS NOT NULL AND b.pages > 250 GROUP BY a.country"
                ),
                WRONG,
            ),
            (
                (
                    "SELECT a.country, COUNT(*) FROM author a JOIN book b ON b.author = a.id GROUP"
                    " BY a.country HAVING AVG(b.pages) > 250"
                ),
                WRONG,
            ),
            (
                (
                    "SELECT a.country, COUNT(DISTINCT a.id) FROM author a JOIN book b ON b.author ="
                    " a.id WHERE a.country IS NOT NULL GROUP BY a.country HAVING AVG(b.pages) > 250"
                ),
                WRONG,
            ),
        ],
    ),
    (
        (
            "WITH busy AS (SELECT member, COUNT(*) AS n FROM loan GROUP BY member) SELECT name, n"
            " FROM member JOIN busy ON busy.member = member.id WHERE n = (SELECT MAX(n) FROM busy)"
        ),
        [
            (
                (
                    "SELECT m.name, COUNT(*) FROM member m JOIN loan l ON l.member = m.id GROUP BY"
                    " m.id, m.name HAVING COUNT(*) = (SELECT MAX(n) FROM (SELECT COUNT(*) AS n FROM"
                    " loan GROUP BY member) x)"
                ),
                RIGHT,
            ),
            # SQLite orders the groups by their key first, so of equal ones it is always the same
            # that is lost.
            (
                (
                    "SELECT m.name, COUNT(*) FROM member m JOIN loan l ON l.member = m.id GROUP BY"
                    " m.id, m.name ORDER BY COUNT(*) DESC LIMIT 1"
                ),
                # Two members may have lent as much: which of them comes is left open.
                ORDER,
            ),
            (
                (
                    "SELECT m.name, MAX(l.id) FROM member m JOIN loan l ON l.member = m.id GROUP BY"
                    " m.id, m.name"
                ),
                WRONG,
            ),
            ("SELECT name, n FROM member JOIN busy ON busy.member = member.id", ERROR),
        ],
    ),
    (
        "SELECT a.name, b.name FROM member a JOIN member b ON a.town = b.town AND a.id < b.id",
        [
            (
                (
                    "SELECT a.name, b.name FROM member a, member b WHERE b.id > a.id AND b.town ="
                    " a.town"
                ),
                RIGHT,
            ),
            (
                (
                    "SELECT a.name, b.name FROM member a JOIN member b ON a.town = b.town AND a.id"
                    " <> b.id"
                ),
                WRONG,
            ),
            ("SELECT a.name, b.name FROM member a JOIN member b ON a.town = b.town", WRONG),
            ("SELECT a.name, b.name FROM member a JOIN member b ON a.id < b.id", WRONG),
        ],
    ),
    (
        (
            "SELECT DISTINCT m.name FROM member m JOIN loan l ON l.member = m.id JOIN copy c ON"
            " c.id = l.copy JOIN book b ON b.isbn = c.isbn WHERE b.genre = 'crime'"
        ),
        [
            (
                (
                    "SELECT name FROM member WHERE id IN (SELECT l.member FROM loan l, copy c, book"
                    " b WHERE l.copy = c.id AND c.isbn = b.isbn AND b.genre = 'crime')"
                ),
                RIGHT,
            ),
            ("SELECT DISTINCT m.name FROM member m NATURAL JOIN loan l", WRONG),
            (
                (
                    "SELECT name FROM member WHERE id IN (SELECT l.member FROM loan l, copy c, book"
                    " b WHERE l.copy = c.id AND b.genre = 'crime')"
                ),
                WRONG,
            ),
            (
                (
                    "SELECT name FROM member WHERE id IN (SELECT l.id FROM loan l, copy c, book b"
                    " WHERE l.copy = c.id AND c.isbn = b.isbn AND b.genre = 'crime')"
                ),
                WRONG,
            ),
        ],
    ),
    (
        "SELECT shelf, ROUND(AVG(pages), 1) FROM copy JOIN book USING (isbn) GROUP BY shelf",
        [
            (
                (
                    "SELECT c.shelf, ROUND(SUM(b.pages) * 1.0 / COUNT(b.pages), 1) FROM copy c JOIN"
                    " book b ON b.isbn = c.isbn GROUP BY c.shelf"
                ),
                RIGHT,
            ),
            (
                "SELECT shelf, ROUND(AVG(pages)) FROM copy JOIN book USING (isbn) GROUP BY shelf",
                WRONG,
            ),
            (
                (
                    "SELECT shelf, ROUND(AVG(coalesce(pages, 0)), 1) FROM copy JOIN book USING"
                    " (isbn) GROUP BY shelf"
                ),
                WRONG,
            ),
            (
                (
                    "SELECT shelf, ROUND(AVG(pages), 1) FROM (SELECT DISTINCT shelf, isbn FROM"
                    " copy) c JOIN book USING (isbn) GROUP BY shelf"
                ),
                WRONG,
            ),
        ],
    ),
]
