"""Twenty tasks over the railway with four answers each, and what each should get."""
from __future__ import annotations

from tasks_library import ERROR, FOREIGN, ORDER, RIGHT, WRONG

TASKS = [
    (
        "SELECT l.name, COUNT(t.no) FROM line l LEFT JOIN train t ON t.line = l.id GROUP BY l.id",
        [
            ("SELECT name, (SELECT COUNT(*) FROM train WHERE line = l.id) FROM line l", RIGHT),
            (
                (
                    "SELECT l.name, COUNT(*) FROM line l LEFT JOIN train t ON t.line = l.id GROUP"
                    " BY l.id"
                ),
                WRONG,
            ),
            (
                (
                    "SELECT l.name, COUNT(t.no) FROM line l JOIN train t ON t.line = l.id GROUP BY"
                    " l.id"
                ),
                WRONG,
            ),
            ("SELECT l.name, COUNT(t.no) FROM line l LEFT JOIN train t ON t.line = l.id", ERROR),
        ],
    ),
    (
        "SELECT name FROM station WHERE EXTRACT(year FROM opened) = 1950",
        [
            ("SELECT name FROM station WHERE to_char(opened, 'YYYY') = '1950'", RIGHT),
            ("SELECT name FROM station WHERE opened BETWEEN '1950-01-01' AND '1950-12-31'", RIGHT),
            (
                "SELECT name FROM station WHERE opened > '1950-01-01' AND opened < '1951-01-01'",
                WRONG,
            ),
            ("SELECT name FROM station WHERE year(opened) = 1950", FOREIGN),
        ],
    ),
    (
        "SELECT name FROM station WHERE name ILIKE '%bridge%'",
        [
            ("SELECT name FROM station WHERE lower(name) LIKE '%bridge%'", RIGHT),
            ("SELECT name FROM station WHERE name LIKE '%bridge%'", WRONG),
            ("SELECT name FROM station WHERE name ILIKE 'bridge%'", WRONG),
            ("SELECT name FROM station WHERE position('bridge' IN lower(name)) > 0", RIGHT),
        ],
    ),
    (
        "SELECT train, AVG(price) FROM ticket GROUP BY train",
        [
            (
                (
                    "SELECT train, SUM(price) / COUNT(price) FROM ticket GROUP BY train HAVING"
                    " COUNT(price) > 0 UNION ALL SELECT train, NULL FROM ticket GROUP BY train"
                    " HAVING COUNT(price) = 0"
                ),
                RIGHT,
            ),
            ("SELECT train, AVG(coalesce(price, 0)) FROM ticket GROUP BY train", WRONG),
            ("SELECT train, round(AVG(price)) FROM ticket GROUP BY train", WRONG),
            ("SELECT train, SUM(price) / COUNT(*) FROM ticket GROUP BY train", WRONG),
        ],
    ),
    (
        (
            "SELECT class, COUNT(*) FROM ticket WHERE class IS NOT NULL GROUP BY class HAVING"
            " COUNT(*) > 3"
        ),
        [
            ("SELECT class, COUNT(*) FROM ticket GROUP BY class HAVING COUNT(class) >= 4", RIGHT),
            (
                (
                    "SELECT class, COUNT(*) FROM ticket WHERE class IS NOT NULL GROUP BY class"
                    " HAVING COUNT(*) >= 3"
                ),
                WRONG,
            ),
            (
                (
                    "SELECT class, COUNT(*) FROM ticket WHERE class IS NOT NULL GROUP BY class"
                    " HAVING COUNT(DISTINCT train) > 3"
                ),
                WRONG,
            ),
            (
                (
                    "SELECT class, COUNT(*) FROM ticket WHERE class IS NOT NULL AND COUNT(*) > 3"
                    " GROUP BY class"
                ),
                ERROR,
            ),
        ],
    ),
    (
        (
            "SELECT s.name FROM station s WHERE NOT EXISTS (SELECT * FROM line l WHERE l.electric"
            " AND NOT EXISTS (SELECT * FROM stop p WHERE p.line = l.id AND p.station = s.code))"
        ),
        [
            (
                (
                    "SELECT name FROM station s WHERE NOT EXISTS (SELECT id FROM line WHERE"
                    " electric EXCEPT SELECT line FROM stop WHERE station = s.code)"
                ),
                RIGHT,
            ),
            (
                (
                    "SELECT s.name FROM station s JOIN stop p ON p.station = s.code JOIN line l ON"
                    " l.id = p.line WHERE l.electric GROUP BY s.code HAVING COUNT(*) = (SELECT"
                    " COUNT(*) FROM line WHERE electric)"
                ),
                WRONG,
            ),
            (
                (
                    "SELECT DISTINCT s.name FROM station s JOIN stop p ON p.station = s.code JOIN"
                    " line l ON l.id = p.line WHERE l.electric"
                ),
                WRONG,
            ),
            (
                (
                    "SELECT s.name FROM station s WHERE (SELECT bool_and(EXISTS (SELECT * FROM stop"
                    " p WHERE p.line = l.id AND p.station = s.code)) FROM line l WHERE l.electric)"
                    " IS NOT FALSE"
                ),
                RIGHT,
            ),
        ],
    ),
    (
        "SELECT no FROM train WHERE seats >= ALL (SELECT seats FROM train WHERE seats IS NOT NULL)",
        [
            (
                (
                    "SELECT no FROM train WHERE seats = (SELECT MAX(seats) FROM train) OR (SELECT"
                    " COUNT(seats) FROM train) = 0"
                ),
                RIGHT,
            ),
            # Of no seats at all every number is the largest.
            ("SELECT no FROM train WHERE seats = (SELECT MAX(seats) FROM train)", WRONG),
            ("SELECT no FROM train WHERE seats >= ALL (SELECT seats FROM train)", WRONG),
            (
                (
                    "SELECT no FROM train WHERE seats > ALL (SELECT seats FROM train WHERE seats IS"
                    " NOT NULL)"
                ),
                WRONG,
            ),
        ],
    ),
    (
        "SELECT DISTINCT ON (line) line, no FROM train ORDER BY line, leaves",
        [
            (
                (
                    "SELECT line, no FROM train t WHERE NOT EXISTS (SELECT * FROM train u WHERE"
                    " u.line = t.line AND u.leaves < t.leaves)"
                ),
                RIGHT,
            ),
            ("SELECT line, MIN(no) FROM train GROUP BY line", RIGHT),
            (
                (
                    "SELECT line, no FROM (SELECT line, no, rank() OVER (PARTITION BY line ORDER BY"
                    " leaves DESC) AS r FROM train) x WHERE r = 1"
                ),
                WRONG,
            ),
            ("SELECT line, MAX(no) FROM train GROUP BY line", WRONG),
        ],
    ),
    (
        "SELECT line, string_agg(station, ',' ORDER BY pos) FROM stop GROUP BY line",
        [
            (
                (
                    "SELECT line, array_to_string(array_agg(station ORDER BY pos), ',') FROM stop"
                    " GROUP BY line"
                ),
                RIGHT,
            ),
            (
                "SELECT line, string_agg(station, ',' ORDER BY station) FROM stop GROUP BY line",
                WRONG,
            ),
            ("SELECT line, string_agg(station, ',') FROM stop GROUP BY line", ORDER),
            ("SELECT line, string_agg(station, ', ' ORDER BY pos) FROM stop GROUP BY line", WRONG),
        ],
    ),
    (
        "SELECT day - date '2024-05-01' FROM ticket WHERE class = 'first'",
        [
            (
                "SELECT (day - '2024-05-01'::date)::bigint FROM ticket WHERE class IN ('first')",
                RIGHT,
            ),
            ("SELECT EXTRACT(day FROM day)::integer - 1 FROM ticket WHERE class = 'first'", WRONG),
            ("SELECT day - date '2024-05-01' FROM ticket WHERE class <> 'second'", RIGHT),
            (
                "SELECT day - date '2024-05-01' FROM ticket WHERE class IS DISTINCT FROM 'second'",
                WRONG,
            ),
        ],
    ),
    (
        "SELECT s.name, p.line FROM station s FULL JOIN stop p ON p.station = s.code AND p.pos = 1",
        [
            (
                (
                    "SELECT s.name, p.line FROM stop p FULL JOIN station s ON s.code = p.station"
                    " AND 1 = p.pos"
                ),
                RIGHT,
            ),
            (
                (
                    "SELECT s.name, p.line FROM station s LEFT JOIN stop p ON p.station = s.code"
                    " AND p.pos = 1"
                ),
                WRONG,
            ),
            (
                (
                    "SELECT s.name, p.line FROM station s FULL JOIN stop p ON p.station = s.code"
                    " WHERE p.pos = 1"
                ),
                WRONG,
            ),
            (
                (
                    "SELECT s.name, p.line FROM station s RIGHT JOIN stop p ON p.station = s.code"
                    " AND p.pos = 1"
                ),
                WRONG,
            ),
        ],
    ),
    (
        "SELECT train, COUNT(*) FILTER (WHERE class = 'first') FROM ticket GROUP BY train",
        [
            (
                (
                    "SELECT train, SUM(CASE WHEN class = 'first' THEN 1 ELSE 0 END) FROM ticket"
                    " GROUP BY train"
                ),
                RIGHT,
            ),
            ("SELECT train, COUNT(*) FROM ticket WHERE class = 'first' GROUP BY train", WRONG),
            ("SELECT train, COUNT(class = 'first') FROM ticket GROUP BY train", WRONG),
            (
                (
                    "SELECT train, COUNT(CASE WHEN class = 'first' THEN 0 END) FROM ticket GROUP BY"
                    " train"
                ),
                RIGHT,
            ),
        ],
    ),
    (
        "SELECT name FROM line WHERE electric",
        [
            ("SELECT name FROM line WHERE electric = true", RIGHT),
            ("SELECT name FROM line WHERE electric IS NOT FALSE", WRONG),
            ("SELECT name FROM line WHERE NOT electric", WRONG),
            ("SELECT name FROM line WHERE electric = 2", ERROR),
        ],
    ),
    (
        "SELECT no FROM train WHERE leaves BETWEEN '07:00:00' AND '12:00:00'",
        [
            ("SELECT no FROM train WHERE leaves >= time '07:00' AND leaves <= time '12:00'", RIGHT),
            ("SELECT no FROM train WHERE EXTRACT(hour FROM leaves) BETWEEN 7 AND 12", RIGHT),
            ("SELECT no FROM train WHERE leaves >= '07:00:00' AND leaves < '12:00:00'", WRONG),
            ("SELECT no FROM train WHERE leaves > '07:00:00' AND leaves <= '12:00:00'", WRONG),
        ],
    ),
    (
        "SELECT zone, COUNT(*) FROM station GROUP BY zone ORDER BY COUNT(*) DESC, zone LIMIT 1",
        [
            (
                (
                    "SELECT zone, n FROM (SELECT zone, COUNT(*) AS n FROM station GROUP BY zone) x"
                    " ORDER BY n DESC, zone FETCH FIRST 1 ROW ONLY"
                ),
                RIGHT,
            ),
            (
                "SELECT zone, COUNT(*) FROM station GROUP BY zone ORDER BY COUNT(*), zone LIMIT 1",
                WRONG,
            ),
            (
                (
                    "SELECT zone, COUNT(zone) FROM station GROUP BY zone ORDER BY COUNT(zone) DESC,"
                    " zone LIMIT 1"
                ),
                WRONG,
            ),
            (
                (
                    "SELECT zone, COUNT(*) FROM station GROUP BY zone HAVING COUNT(*) = (SELECT"
                    " MAX(n) FROM (SELECT COUNT(*) AS n FROM station GROUP BY zone) x)"
                ),
                WRONG,
            ),
        ],
    ),
    (
        (
            "SELECT a.station, b.station FROM stop a JOIN stop b ON b.line = a.line AND b.pos ="
            " a.pos + 1"
        ),
        [
            (
                (
                    "SELECT a.station, b.station FROM stop a, stop b WHERE a.line = b.line AND"
                    " a.pos = b.pos - 1"
                ),
                RIGHT,
            ),
            (
                (
                    "SELECT a.station, b.station FROM stop a JOIN stop b ON b.line = a.line AND"
                    " b.pos > a.pos"
                ),
                WRONG,
            ),
            ("SELECT a.station, b.station FROM stop a JOIN stop b ON b.pos = a.pos + 1", WRONG),
            # Where a station in between is left out, the next one is farther.
            (
                (
                    "SELECT station, next FROM (SELECT station, lead(station) OVER (PARTITION BY"
                    " line ORDER BY pos) AS next FROM stop) x WHERE next IS NOT NULL"
                ),
                WRONG,
            ),
        ],
    ),
    (
        (
            "SELECT t.no, coalesce(SUM(k.price), 0) FROM train t LEFT JOIN ticket k ON k.train ="
            " t.no GROUP BY t.no"
        ),
        [
            (
                (
                    "SELECT no, coalesce((SELECT SUM(price) FROM ticket WHERE train = no), 0.00)"
                    " FROM train"
                ),
                RIGHT,
            ),
            (
                (
                    "SELECT t.no, SUM(coalesce(k.price, 0)) FROM train t LEFT JOIN ticket k ON"
                    " k.train = t.no GROUP BY t.no"
                ),
                RIGHT,
            ),
            (
                (
                    "SELECT t.no, SUM(k.price) FROM train t LEFT JOIN ticket k ON k.train = t.no"
                    " GROUP BY t.no"
                ),
                WRONG,
            ),
            (
                (
                    "SELECT t.no, coalesce(SUM(DISTINCT k.price), 0) FROM train t LEFT JOIN ticket"
                    " k ON k.train = t.no GROUP BY t.no"
                ),
                WRONG,
            ),
        ],
    ),
    (
        "SELECT code FROM station EXCEPT SELECT station FROM stop",
        [
            ("SELECT code FROM station WHERE code NOT IN (SELECT station FROM stop)", RIGHT),
            (
                (
                    "SELECT code FROM station s LEFT JOIN stop p ON p.station = s.code WHERE p.line"
                    " IS NULL"
                ),
                RIGHT,
            ),
            ("SELECT station FROM stop EXCEPT SELECT code FROM station", WRONG),
            ("SELECT code FROM station INTERSECT SELECT station FROM stop", WRONG),
        ],
    ),
    (
        "SELECT DISTINCT s.name FROM station s JOIN stop p ON p.station = s.code WHERE p.line = 1",
        [
            (
                "SELECT name FROM station WHERE code IN (SELECT station FROM stop WHERE line = 1)",
                RIGHT,
            ),
            (
                (
                    "SELECT s.name FROM station s JOIN stop p ON p.station = s.code JOIN line l ON"
                    " l.id = p.line WHERE l.id = 1"
                ),
                RIGHT,
            ),
            (
                "SELECT s.name FROM station s JOIN stop p ON p.station = s.code WHERE p.pos = 1",
                WRONG,
            ),
            ("SELECT s.name FROM station s, stop p WHERE p.line = 1", WRONG),
        ],
    ),
    (
        "SELECT class, MAX(price) - MIN(price) FROM ticket GROUP BY class",
        [
            (
                (
                    "SELECT DISTINCT class, MAX(price) OVER w - MIN(price) OVER w FROM ticket"
                    " WINDOW w AS (PARTITION BY class)"
                ),
                RIGHT,
            ),
            ("SELECT class, MAX(price) FROM ticket GROUP BY class", WRONG),
            (
                (
                    "SELECT class, MAX(price) - MIN(price) FROM ticket WHERE class IS NOT NULL"
                    " GROUP BY class"
                ),
                WRONG,
            ),
            (
                (
                    "SELECT class, MAX(price) - MIN(price) AS spread, COUNT(*) FROM ticket GROUP BY"
                    " class"
                ),
                WRONG,
            ),
        ],
    ),
]
