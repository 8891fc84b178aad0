"""Ten more tasks over the library: ties, decimals, a view, quoted aliases, and the words of other
databases. SQLite decides them, so what it has no word for is rewritten, or read by no one."""
from __future__ import annotations

from tasks_library import ERROR, FOREIGN, ORDER, RIGHT, WRONG

MEMBERS = "member WHERE town IS NOT NULL GROUP BY town"
OLD = "SELECT name FROM member WHERE born < '1980-01-01'"
FROM_NES = "SELECT name FROM member WHERE town = 'Nes'"
PRICED = "FROM book WHERE price IS NOT NULL GROUP BY genre"
NUMBERED = "SELECT member, out, ROW_NUMBER() OVER (PARTITION BY member ORDER BY"

TASKS = [
    # The second most expensive book.
    (
        "SELECT title FROM book ORDER BY price DESC, isbn LIMIT 1 OFFSET 1",
        [
            ("SELECT title FROM book ORDER BY price DESC, isbn LIMIT 1, 1", RIGHT),
            ("SELECT title FROM book ORDER BY price DESC LIMIT 1 OFFSET 1", ORDER),
            # Where two cost the most, none has the second rank.
            (
                "SELECT title FROM (SELECT title, RANK() OVER (ORDER BY price DESC) AS r FROM book)"
                " WHERE r = 2",
                WRONG,
            ),
            ("SELECT title FROM book ORDER BY price DESC, isbn LIMIT 2", WRONG),
        ],
    ),
    # The towns with the most members.
    (
        f"SELECT town FROM {MEMBERS} HAVING COUNT(*) >= ALL (SELECT COUNT(*) FROM {MEMBERS})",
        [
            (
                f"SELECT town FROM {MEMBERS} HAVING COUNT(*) ="
                f" (SELECT MAX(n) FROM (SELECT COUNT(*) AS n FROM {MEMBERS}) x)",
                RIGHT,
            ),
            (f"SELECT town FROM {MEMBERS} ORDER BY COUNT(*) DESC LIMIT 1", ORDER),
            # A member without a town makes a group of its own.
            (
                "SELECT town FROM member GROUP BY town HAVING COUNT(*) ="
                " (SELECT MAX(n) FROM (SELECT COUNT(*) AS n FROM member GROUP BY town) x)",
                WRONG,
            ),
            (
                f"SELECT town FROM {MEMBERS} HAVING COUNT(*) > ANY (SELECT COUNT(*) FROM {MEMBERS})",
                WRONG,
            ),
        ],
    ),
    # INTERSECT is taken before UNION: ISO/IEC 9075-2, 7.17.
    (
        f"SELECT name FROM author UNION ({FROM_NES} INTERSECT {OLD})",
        [
            (f"SELECT name FROM author UNION {FROM_NES} INTERSECT {OLD}", RIGHT),
            (f"(SELECT name FROM author) UNION ({FROM_NES} AND born < '1980-01-01')", RIGHT),
            (f"(SELECT name FROM author UNION {FROM_NES}) INTERSECT {OLD}", WRONG),
            (f"SELECT name FROM author UNION ALL ({FROM_NES} INTERSECT {OLD})", RIGHT),
        ],
    ),
    (
        'SELECT a.country AS "Country", COUNT(b.isbn) AS "Number of books" FROM author a'
        " LEFT JOIN book b ON b.author = a.id GROUP BY a.country",
        [
            (
                'SELECT country AS "the country", COUNT(isbn) AS "how many?" FROM author'
                ' LEFT JOIN book ON author = id GROUP BY "the country"',
                RIGHT,
            ),
            (
                'SELECT a.country AS "Country", COUNT(*) AS "Number of books" FROM author a'
                " LEFT JOIN book b ON b.author = a.id GROUP BY a.country",
                WRONG,
            ),
            (
                'SELECT x."Country", x."n" FROM (SELECT a.country AS "Country", COUNT(b.isbn) AS "n"'
                " FROM author a LEFT JOIN book b ON b.author = a.id GROUP BY a.country) AS x"
                ' ORDER BY x."n" DESC',
                RIGHT,
            ),
            (
                'SELECT a.country AS "Country", COUNT(b.isbn) AS "n" FROM author a'
                " JOIN book b ON b.author = a.id GROUP BY a.country",
                WRONG,
            ),
        ],
    ),
    # Over the view lent.
    (
        "SELECT b.title, COUNT(x.member) FROM book b LEFT JOIN lent x ON x.isbn = b.isbn"
        " GROUP BY b.isbn, b.title",
        [
            (
                "SELECT title, (SELECT COUNT(*) FROM copy c JOIN loan l ON l.copy = c.id"
                " WHERE c.isbn = b.isbn) FROM book b",
                RIGHT,
            ),
            (
                "SELECT b.title, COUNT(*) FROM book b LEFT JOIN lent x ON x.isbn = b.isbn"
                " GROUP BY b.isbn, b.title",
                WRONG,
            ),
            (
                "SELECT b.title, COUNT(x.back) FROM book b LEFT JOIN lent x ON x.isbn = b.isbn"
                " GROUP BY b.isbn, b.title",
                WRONG,
            ),
            (
                "SELECT b.title, COUNT(x.member) FROM book b JOIN lent x ON x.isbn = b.isbn"
                " GROUP BY b.isbn, b.title",
                WRONG,
            ),
        ],
    ),
    (
        f"SELECT genre, ROUND(AVG(price), 2) {PRICED}",
        [
            (f"SELECT genre, ROUND(SUM(price) * 1.0 / COUNT(*), 2) {PRICED}", RIGHT),
            (f"SELECT genre, ROUND(AVG(price), 1) {PRICED}", WRONG),
            (f"SELECT genre, CAST(AVG(price) AS INTEGER) {PRICED}", WRONG),
            # Right in PostgreSQL. Which kind of number an average has in SQLite isn't known.
            (f"SELECT genre, ROUND(AVG(price)::numeric, 2) {PRICED}", FOREIGN),
        ],
    ),
    (
        "SELECT name FROM member WHERE EXTRACT(YEAR FROM born) = 1990",
        [
            ("SELECT name FROM member WHERE strftime('%Y', born) = '1990'", RIGHT),
            ("SELECT name FROM member WHERE born BETWEEN '1990-01-01' AND '1990-12-31'", RIGHT),
            ("SELECT name FROM member WHERE YEAR(born) = 1990", FOREIGN),
            ("SELECT name FROM member WHERE EXTRACT(YEAR FROM born) >= 1990", WRONG),
        ],
    ),
    (
        "SELECT title FROM book WHERE title ILIKE 'the %'",
        [
            ("SELECT title FROM book WHERE LOWER(title) LIKE 'the %'", RIGHT),
            ("SELECT title FROM book WHERE title ILIKE '%the %'", WRONG),
            ("SELECT title FROM book WHERE title ~ '^The '", FOREIGN),
            ("SELECT title FROM book WHERE POSITION('the ' IN LOWER(title)) = 1", RIGHT),
        ],
    ),
    (
        f"SELECT member, out FROM ({NUMBERED} out, id) AS n FROM loan) x WHERE n = 1",
        [
            ("SELECT member, MIN(out) FROM loan GROUP BY member", RIGHT),
            # Loans of the same day tie, and all of them show this day.
            (f"SELECT member, out FROM ({NUMBERED} out) AS n FROM loan) x WHERE n = 1", RIGHT),
            (
                f"SELECT member, out FROM ({NUMBERED} out DESC, id) AS n FROM loan) x WHERE n = 1",
                WRONG,
            ),
            (f"SELECT member, out FROM ({NUMBERED} out, id AS n FROM loan) x WHERE n = 1", ERROR),
        ],
    ),
    (
        "SELECT member, copy FROM loan l WHERE id = (SELECT MIN(id) FROM loan k WHERE k.member = l.member)",
        [
            (
                "SELECT member, copy FROM (SELECT member, copy, ROW_NUMBER() OVER"
                " (PARTITION BY member ORDER BY id) AS n FROM loan) x WHERE n = 1",
                RIGHT,
            ),
            (
                "SELECT DISTINCT member, FIRST_VALUE(copy) OVER (PARTITION BY member ORDER BY id)"
                " FROM loan",
                RIGHT,
            ),
            # The numbers grow with the days, but two loans of one day tie.
            (
                "SELECT member, copy FROM (SELECT member, copy, ROW_NUMBER() OVER"
                " (PARTITION BY member ORDER BY out) AS n FROM loan) x WHERE n = 1",
                ORDER,
            ),
            ("SELECT member, MIN(copy) FROM loan GROUP BY member", WRONG),
        ],
    ),
]
