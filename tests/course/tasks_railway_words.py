"""Ten more tasks over the railway: ties, decimals, a view, quoted aliases, and the words of other
databases. PostgreSQL decides them."""
from __future__ import annotations

from tasks_library import ERROR, FOREIGN, ORDER, RIGHT, WRONG

STOPS = "station s LEFT JOIN stop p ON p.station = s.code"
FIRST = "SELECT t.no FROM train t WHERE t.line = l.id ORDER BY t.leaves"

TASKS = [
    # Over the view service.
    (
        "SELECT line, COUNT(*) FROM service GROUP BY line",
        [
            (
                "SELECT l.name, COUNT(*) FROM train t JOIN line l ON t.line = l.id GROUP BY l.name",
                RIGHT,
            ),
            (
                "SELECT l.name, COUNT(t.no) FROM line l LEFT JOIN train t ON t.line = l.id"
                " GROUP BY l.name",
                WRONG,
            ),
            ("SELECT line, COUNT(seats) FROM service GROUP BY line", WRONG),
            ("SELECT line, COUNT(*) FROM train GROUP BY line", WRONG),
        ],
    ),
    # The two largest trains.
    (
        "SELECT no FROM train ORDER BY seats DESC NULLS LAST, no LIMIT 2",
        [
            (
                "SELECT no FROM (SELECT no, ROW_NUMBER() OVER (ORDER BY seats DESC NULLS LAST, no)"
                " AS n FROM train) x WHERE n <= 2",
                RIGHT,
            ),
            ("SELECT no FROM train ORDER BY seats DESC NULLS LAST LIMIT 2", ORDER),
            # PostgreSQL puts NULL before all values where they go down.
            ("SELECT no FROM train ORDER BY seats DESC, no LIMIT 2", WRONG),
            (
                "SELECT no FROM train ORDER BY seats DESC NULLS LAST, no FETCH FIRST 2 ROWS WITH TIES",
                RIGHT,
            ),
        ],
    ),
    (
        "SELECT class, AVG(price) FROM ticket GROUP BY class",
        [
            (
                "SELECT class, SUM(price) / NULLIF(COUNT(price), 0) FROM ticket GROUP BY class",
                RIGHT,
            ),
            ("SELECT class, ROUND(AVG(price), 2) FROM ticket GROUP BY class", WRONG),
            ("SELECT class, AVG(price)::float8 FROM ticket GROUP BY class", RIGHT),
            ("SELECT class, AVG(DISTINCT price) FROM ticket GROUP BY class", WRONG),
        ],
    ),
    (
        'SELECT s.name AS "Station", COUNT(p.line) AS "Lines" FROM'
        f" {STOPS} GROUP BY s.code, s.name",
        [
            (
                'SELECT "Station", "Lines" FROM (SELECT name AS "Station", (SELECT COUNT(*)'
                ' FROM stop WHERE station = code) AS "Lines" FROM station) AS "Every Station"',
                RIGHT,
            ),
            (f"SELECT s.name AS Station, COUNT(*) AS Lines FROM {STOPS} GROUP BY s.code", WRONG),
            (
                'SELECT s.name AS "Station", COUNT(p.line) AS "Lines" FROM station s'
                " JOIN stop p ON p.station = s.code GROUP BY s.code",
                WRONG,
            ),
            # The column of stop, and no alias: s.name is neither grouped nor aggregated.
            (
                f'SELECT s.name AS "Station", COUNT(p.line) AS "Lines" FROM {STOPS} GROUP BY station',
                ERROR,
            ),
        ],
    ),
    (
        "SELECT name FROM line ORDER BY name LIMIT 2",
        [
            ("SELECT name FROM line ORDER BY name ASC FETCH NEXT 2 ROWS ONLY", RIGHT),
            ("SELECT `name` FROM `line` ORDER BY `name` LIMIT 2", FOREIGN),
            ("SELECT TOP 2 name FROM line ORDER BY name", FOREIGN),
            ("SELECT name FROM line ORDER BY name LIMIT 0, 2", FOREIGN),
        ],
    ),
    (
        "SELECT line, MIN(leaves) FROM train GROUP BY line",
        [
            (
                "SELECT DISTINCT line, FIRST_VALUE(leaves) OVER (PARTITION BY line ORDER BY leaves)"
                " FROM train",
                RIGHT,
            ),
            ("SELECT DISTINCT ON (line) line, leaves FROM train ORDER BY line", ORDER),
            ("SELECT line, MIN(leaves) FROM train WHERE leaves > '07:00' GROUP BY line", WRONG),
            (
                "SELECT line, leaves FROM train t WHERE leaves <= ALL"
                " (SELECT leaves FROM train u WHERE u.line = t.line)",
                RIGHT,
            ),
        ],
    ),
    (
        "SELECT line, SUM(seats) FROM train GROUP BY ROLLUP (line)",
        [
            (
                "SELECT line, SUM(seats) FROM train GROUP BY line"
                " UNION ALL SELECT NULL, SUM(seats) FROM train",
                RIGHT,
            ),
            ("SELECT line, SUM(seats) FROM train GROUP BY GROUPING SETS ((line), ())", RIGHT),
            ("SELECT line, SUM(seats) FROM train GROUP BY line", WRONG),
            (
                "SELECT line, SUM(seats) FROM train GROUP BY line"
                " UNION ALL SELECT NULL, COUNT(seats) FROM train",
                WRONG,
            ),
        ],
    ),
    # The first train of each line.
    (
        f"SELECT l.name, f.no FROM line l JOIN LATERAL ({FIRST}, t.no LIMIT 1) f ON true",
        [
            (
                "SELECT l.name, t.no FROM line l JOIN train t ON t.line = l.id WHERE NOT EXISTS"
                " (SELECT * FROM train u WHERE u.line = t.line AND (u.leaves, u.no) < (t.leaves, t.no))",
                RIGHT,
            ),
            (
                f"SELECT l.name, f.no FROM line l LEFT JOIN LATERAL ({FIRST}, t.no LIMIT 1) f ON true",
                WRONG,
            ),
            (
                f"SELECT l.name, ({FIRST} DESC, t.no LIMIT 1) FROM line l"
                " WHERE EXISTS (SELECT * FROM train t WHERE t.line = l.id)",
                WRONG,
            ),
            (
                "SELECT DISTINCT ON (l.name) l.name, t.no FROM line l JOIN train t ON t.line = l.id"
                " ORDER BY l.name, t.leaves, t.no",
                RIGHT,
            ),
        ],
    ),
    (
        "SELECT id FROM ticket WHERE day >= date '2024-05-01'"
        " AND day < date '2024-05-01' + interval '1 month'",
        [
            ("SELECT id FROM ticket WHERE date_trunc('month', day) = '2024-05-01'", RIGHT),
            ("SELECT id FROM ticket WHERE day BETWEEN '2024-05-01' AND '2024-05-30'", WRONG),
            ("SELECT id FROM ticket WHERE to_char(day, 'MM') = '05'", RIGHT),
            ("SELECT id FROM ticket WHERE DATE_FORMAT(day, '%m') = '05'", FOREIGN),
        ],
    ),
    (
        "SELECT code FROM station WHERE zone IS DISTINCT FROM 1",
        [
            ("SELECT code FROM station WHERE zone <> 1 OR zone IS NULL", RIGHT),
            ("SELECT code FROM station WHERE zone <> 1", WRONG),
            ("SELECT trim(code) FROM station WHERE (zone = 1) IS NOT TRUE", RIGHT),
            ("SELECT code FROM station WHERE NOT zone = 1", WRONG),
        ],
    ),
]
