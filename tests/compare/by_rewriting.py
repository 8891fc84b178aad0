"""Queries in words that SQLite doesn't have: PostgreSQL answers them as they are, and SQLite what
`classroom.sql.rewrite` makes of them, on random small tables with NULLs."""
from __future__ import annotations

import argparse
import random
import sqlite3
import sys
import time
from collections import Counter
from contextlib import closing
from datetime import date, datetime
from decimal import Decimal
from pathlib import Path
from typing import Any, Optional

from .by_postgres import server

try:
    import psycopg
except ImportError:
    psycopg = None  # type: ignore[assignment]

sys.path.append(str(Path(__file__).resolve().parents[2] / "python"))

COLUMNS = {
    "a": {"id": "INTEGER", "x": "INTEGER", "s": "TEXT"},
    "b": {"y": "INTEGER", "x": "INTEGER", "d": "TEXT"},
    "e": {"k": "INTEGER", "d1": "DATE", "m": "TIMESTAMP"},
}
POSTGRES = {
    "INTEGER": "bigint",
    "TEXT": 'text COLLATE "C"',
    "DATE": "date",
    "TIMESTAMP": "timestamp",
}
SIGNS = ["=", "<>", "<", "<=", ">", ">="]
CONDITIONS = ["1 = 1", "b.y > 1", "b.y = a.id", "b.x IS NOT NULL"]
PATTERNS = ["a%", "A%", "%B", "_", "a\\_b", "%\\%", "AB", ""]
UP = "x NULLS FIRST, id NULLS FIRST, s NULLS FIRST"
DOWN = "x DESC NULLS LAST, id NULLS FIRST, s NULLS FIRST"

# By what of PostgreSQL or of the standard it has: {op} is a comparison, {c} a condition, {p} a pattern.
LINES: dict[str, list[str]] = {
    "ANY, SOME": [
        "SELECT id FROM a WHERE x {op} ANY (SELECT b.x FROM b WHERE {c})",
        "SELECT id, x {op} ANY (SELECT y FROM b) FROM a",
        "SELECT id FROM a WHERE NOT x {op} SOME (SELECT x FROM b WHERE b.y = a.id)",
        "SELECT id FROM a WHERE x {op} ANY (SELECT x FROM b UNION SELECT y FROM b)",
        "SELECT id FROM a WHERE x = ANY (VALUES (1), (2))",
        "SELECT id FROM a WHERE x + 1 {op} ANY (SELECT y FROM b) OR id IS NULL",
    ],
    "ALL": [
        "SELECT id FROM a WHERE x {op} ALL (SELECT b.x FROM b WHERE {c})",
        "SELECT id, x {op} ALL (SELECT y FROM b) FROM a",
        "SELECT id FROM a WHERE NOT x {op} ALL (SELECT x FROM b WHERE b.y = a.id)",
        "SELECT id FROM a WHERE x + id {op} ALL (SELECT x FROM b ORDER BY x NULLS FIRST LIMIT 2)",
        "SELECT id FROM a GROUP BY id HAVING COUNT(x) {op} ALL (SELECT COUNT(x) FROM b GROUP BY y)",
        "SELECT AVG(x) {op} ALL (SELECT x FROM b) FROM a",
        "SELECT s FROM a WHERE s {op} ALL (SELECT d FROM b)",
    ],
    "ANY and ALL of a list": [
        "SELECT id FROM a WHERE x {op} ANY (ARRAY[1, 2, NULL])",
        "SELECT id FROM a WHERE x {op} ALL (ARRAY[1, 2])",
        "SELECT id FROM a WHERE NOT x {op} ALL (ARRAY[id, NULL])",
    ],
    "BETWEEN SYMMETRIC": [
        "SELECT id FROM a WHERE x BETWEEN SYMMETRIC 3 AND 1",
        "SELECT id, x BETWEEN SYMMETRIC id AND 2 FROM a",
        "SELECT id FROM a WHERE x NOT BETWEEN SYMMETRIC id AND NULL",
        "SELECT id FROM a WHERE x BETWEEN SYMMETRIC id - 1 AND 2 AND id {op} 1",
    ],
    "FETCH FIRST": [
        f"SELECT x FROM a ORDER BY {UP} FETCH FIRST 2 ROWS ONLY",
        f"SELECT x FROM a ORDER BY {DOWN} OFFSET 1 ROWS FETCH NEXT ROW ONLY",
        f"SELECT MAX(x) FROM (SELECT x FROM a ORDER BY {UP} FETCH FIRST 3 ROWS ONLY) q",
        "SELECT x FROM a UNION SELECT y FROM b ORDER BY x NULLS FIRST FETCH FIRST 2 ROWS ONLY",
    ],
    "OFFSET alone": [
        f"SELECT x, id FROM a ORDER BY {DOWN} OFFSET 2",
        f"SELECT x FROM a ORDER BY {UP} OFFSET 1",
        "SELECT x FROM a UNION ALL SELECT y FROM b ORDER BY 1 NULLS FIRST OFFSET 2",
    ],
    "ILIKE": [
        "SELECT id FROM a WHERE s ILIKE '{p}'",
        "SELECT id FROM a WHERE s NOT ILIKE '{p}'",
        "SELECT id, s ILIKE '{p}' OR x {op} 1 FROM a",
    ],
    "public": [
        "SELECT q.x FROM public.a q WHERE q.id {op} 2",
        "SELECT a.x FROM public.a, b WHERE a.id = b.y",
        "SELECT id FROM a WHERE x IN (SELECT x FROM public.b)",
    ],
    "EXTRACT, DATE_PART": [
        "SELECT EXTRACT(YEAR FROM CAST(d AS date)), EXTRACT(MONTH FROM d::date), EXTRACT(DAY FROM"
        " d::date), EXTRACT(DOW FROM d::date), EXTRACT(DOY FROM d::date), EXTRACT(QUARTER FROM"
        " d::date), EXTRACT(EPOCH FROM d::date) FROM b WHERE d LIKE '20%'",
        "SELECT EXTRACT(HOUR FROM m), EXTRACT(MINUTE FROM m), EXTRACT(SECOND FROM m),"
        " EXTRACT(YEAR FROM m), EXTRACT(EPOCH FROM m) FROM e",
        "SELECT k FROM e WHERE EXTRACT(YEAR FROM d1) {op} 2023",
        "SELECT DATE_PART('year', d1), DATE_PART('month', CAST(d AS date)) FROM e, b"
        " WHERE d LIKE '20%'",
        "SELECT EXTRACT(YEAR FROM d1), COUNT(*) FROM e GROUP BY EXTRACT(YEAR FROM d1)",
    ],
    "dates": [
        "SELECT d FROM b WHERE d LIKE '20%' AND CAST(d AS date) {op} DATE '2024-02-29'",
        "SELECT k FROM e WHERE d1 {op} DATE '2023-12-31'",
        "SELECT k FROM e WHERE d1 BETWEEN DATE '2023-12-31' AND '2024-03-01'::date",
        "SELECT CAST(d AS date) - DATE '2024-01-01' FROM b WHERE d LIKE '20%'",
        "SELECT d1::date - DATE '2023-01-31' FROM e",
        "SELECT MAX(CAST(d AS date))::text, MIN(d::date)::text FROM b WHERE d LIKE '20%'",
        "SELECT x.d FROM b x JOIN b z ON x.d::date {op} z.d::date"
        " WHERE x.d LIKE '20%' AND z.d LIKE '20%'",
    ],
    "AS t(a, b)": [
        "SELECT t.q FROM a AS t(p, q, r) WHERE t.p {op} 2",
        "SELECT q, s FROM a AS t(p, q) WHERE p {op} q",
        "SELECT t.u FROM (SELECT x, s FROM a) AS t(u, v) WHERE v = 'a' OR u {op} 1",
        "SELECT u FROM (VALUES (1, 2), (3, NULL)) AS t(u, v) WHERE v IS NULL OR u {op} 2",
        "SELECT t.u, COUNT(*) FROM (SELECT x, s FROM a UNION ALL SELECT y, d FROM b) t(u, v)"
        " GROUP BY t.u",
    ],
    "LATERAL": [
        "SELECT a.id, q.p FROM a CROSS JOIN LATERAL (SELECT a.x + 1 AS p) q WHERE q.p {op} 2",
        "SELECT a.id, q.n FROM a, LATERAL (SELECT COUNT(*) AS n FROM b WHERE b.y = a.id) q",
        "SELECT a.id, q.m FROM a LEFT JOIN LATERAL (SELECT MAX(b.x) FROM b WHERE b.y {op} a.id)"
        " AS q(m) ON TRUE",
        "SELECT a.id, q.v FROM a LEFT JOIN LATERAL (SELECT b.x AS v FROM b WHERE b.y = a.id"
        " ORDER BY b.x DESC NULLS LAST LIMIT 1) q ON TRUE",
        "SELECT q.n, COUNT(*) FROM a CROSS JOIN LATERAL (SELECT SUM(b.x) AS n FROM b"
        " WHERE b.y = a.x) q GROUP BY q.n",
    ],
    "EXCEPT ALL, INTERSECT ALL": [
        "SELECT x FROM a EXCEPT ALL SELECT x FROM b",
        "SELECT x, id FROM a INTERSECT ALL SELECT x, y FROM b",
        "SELECT x FROM a INTERSECT ALL SELECT y FROM b",
        "(SELECT x FROM a UNION ALL SELECT x FROM a) EXCEPT ALL SELECT x FROM b",
        "SELECT x FROM a UNION ALL SELECT id FROM a EXCEPT ALL SELECT x FROM b",
        "SELECT x FROM a EXCEPT ALL SELECT x FROM b UNION SELECT y FROM b",
        "SELECT x FROM a EXCEPT ALL SELECT x FROM b ORDER BY x NULLS FIRST",
    ],
    "DISTINCT ON": [
        f"SELECT DISTINCT ON (x) x, id, s FROM a ORDER BY {UP}",
        "SELECT DISTINCT ON (x, s) x, id FROM a ORDER BY x NULLS FIRST, s NULLS FIRST,"
        " id DESC NULLS LAST",
        "SELECT DISTINCT ON (a.x) a.x, b.y FROM a JOIN b ON a.id {op} b.y"
        " ORDER BY a.x DESC NULLS LAST, b.y NULLS FIRST, b.x",
        f"SELECT DISTINCT ON (x) id FROM a ORDER BY {UP} LIMIT 2",
    ],
    "ROLLUP, CUBE, GROUPING SETS": [
        "SELECT x, id, COUNT(*) FROM a GROUP BY ROLLUP (x, id)",
        "SELECT x, COUNT(id) FROM a GROUP BY GROUPING SETS ((x), ())",
        "SELECT x, id, SUM(id) FROM a GROUP BY CUBE (x, id) HAVING COUNT(*) > 1",
        "SELECT s, x, MAX(id) FROM a GROUP BY s, ROLLUP (x)",
        "SELECT x FROM a GROUP BY GROUPING SETS ((x), (id), ())",
        "SELECT COALESCE(x, 0), COUNT(*) FROM a GROUP BY ROLLUP (x)",
    ],
    "GREATEST, LEAST": [
        "SELECT id, GREATEST(x, id, 2), LEAST(x, NULL, id) FROM a",
        "SELECT x, GREATEST(COUNT(*), 2), LEAST(MAX(id), MIN(id), x) FROM a GROUP BY x",
    ],
    "functions of texts": [
        "SELECT CHAR_LENGTH(s), CHARACTER_LENGTH(s), CONCAT(s, '-', NULL, s, x) FROM a",
        "SELECT LEFT(s, 1), LEFT(s, -1), LEFT(s, 0), RIGHT(s, 1), RIGHT(s, -1), RIGHT(s, 0),"
        " RIGHT(s, 9) FROM a",
        "SELECT POSITION('a' IN s), STRPOS(s, 'b') FROM a",
        "SELECT SUBSTRING(s FROM 2 FOR 1), SUBSTRING(s FROM 2) FROM a",
    ],
    "BOOL_OR, BOOL_AND, EVERY": [
        "SELECT x, BOOL_OR(id {op} 2), BOOL_AND(id {op} 1), EVERY(id > 0) FROM a GROUP BY x",
        "SELECT x FROM a GROUP BY x HAVING BOOL_AND(id {op} 2)",
    ],
    "casts": [
        "SELECT x::int, x::text, s::text, x::bigint, x::numeric, x::double precision FROM a",
        "SELECT x::numeric / 2, x::float / 3, '12'::int + x FROM a",
        "SELECT (x / 2.0)::int, (x > 1)::int, (x + id)::text FROM a",
        "SELECT x, AVG(id)::int, SUM((id {op} 1)::int), COUNT(*)::numeric / 2 FROM a GROUP BY x",
    ],
    "TABLE": ["TABLE a", "TABLE b;"],
    "parentheses of set operators": [
        "(SELECT x FROM a) UNION (SELECT y FROM b)",
        "SELECT x FROM a EXCEPT (SELECT y FROM b UNION SELECT x FROM b)",
        "(SELECT x FROM a UNION ALL SELECT y FROM b) ORDER BY x NULLS FIRST",
        "SELECT q.x FROM ((SELECT x FROM a) EXCEPT (SELECT y FROM b)) q WHERE q.x {op} 1",
        "(SELECT x FROM a ORDER BY x NULLS FIRST LIMIT 1) UNION ALL (SELECT y FROM b)",
        "(SELECT x FROM a) EXCEPT (SELECT y FROM b) ORDER BY x DESC NULLS LAST LIMIT 2",
    ],
    "several": [
        "SELECT id FROM a WHERE x {op} ALL (SELECT b.x FROM b WHERE y = ANY (SELECT id FROM a a2"
        " WHERE a2.x {op} a.x))",
        "SELECT id, CASE WHEN x {op} ANY (SELECT y FROM b) THEN 'y' WHEN NOT x {op} ALL (SELECT y"
        " FROM b) THEN 'n' ELSE 'u' END FROM a",
        "SELECT id FROM a WHERE NOT (x {op} ALL (SELECT b.x FROM b WHERE b.y IS NOT NULL) OR s"
        " ILIKE 'A%')",
        "SELECT t.p, COUNT(*) FROM a AS t(p, q) GROUP BY t.p HAVING COUNT(t.q) {op} ALL (SELECT"
        " COUNT(u.q) FROM a AS u(p, q) GROUP BY u.p)",
        "SELECT x FROM a WHERE GREATEST(x, id) {op} ANY (SELECT LEAST(y, b.x) FROM b) EXCEPT ALL"
        " SELECT y FROM b",
        "SELECT id FROM public.a WHERE (SELECT MAX(b.x) FROM public.b WHERE b.y = a.id) {op} SOME"
        " (SELECT x FROM b FETCH FIRST 9 ROWS ONLY)",
        "WITH q AS (SELECT x FROM a UNION (SELECT y FROM b)) SELECT x FROM q WHERE x {op} ALL"
        " (SELECT id FROM a WHERE id IS NOT NULL) UNION SELECT 7 ORDER BY x NULLS FIRST",
    ],
}
# SQLite reads these, in an order of its own.
READ = {
    "INTERSECT first": [
        "SELECT x FROM a UNION SELECT y FROM b INTERSECT SELECT id FROM a",
        "SELECT x FROM a EXCEPT SELECT y FROM b INTERSECT SELECT id FROM a"
        " ORDER BY x NULLS FIRST LIMIT 2",
        "SELECT x FROM a UNION ALL SELECT y FROM b INTERSECT SELECT id FROM a UNION SELECT 2",
    ],
}
# No rewriting of these is the same for certain.
REFUSED = [
    "SELECT id FROM a WHERE x = ANY ('{1,2}')",
    "SELECT id FROM a WHERE s ~ 'a'",
    "SELECT id FROM a WHERE s SIMILAR TO 'a%'",
    "SELECT id FROM a WHERE s ILIKE 'É%'",
    "SELECT id, s ILIKE d FROM a, b",
    "SELECT id FROM a WHERE s ILIKE 'a!%' ESCAPE '!'",
    "SELECT id FROM other.a WHERE x = ANY (SELECT 1)",
    "WITH a AS (SELECT 1 AS x) SELECT x FROM public.a",
    "SELECT EXTRACT(WEEK FROM d1) FROM e",
    "SELECT EXTRACT(YEAR FROM s) FROM a",
    "SELECT d1::date + 1 FROM e",
    "SELECT d1 - DATE '2024-01-01' + INTERVAL '1 day' FROM e",
    "SELECT DATE '2024-02-30' FROM a",
    "SELECT s::int FROM a",
    "SELECT (x > 1)::text FROM a",
    "SELECT x::numeric(5, 1) FROM a",
    "SELECT s::varchar(1) FROM a",
    "SELECT * FROM a NATURAL JOIN b WHERE x = ANY (SELECT 1)",
    "SELECT a.id, q.x FROM a CROSS JOIN LATERAL (SELECT b.x FROM b WHERE b.y = a.id) q",
    "SELECT a.id, q.x FROM a, LATERAL (SELECT b.x, (SELECT MAX(y) FROM b) AS m FROM b) q",
    "SELECT a.id, q.n FROM a, LATERAL (SELECT COUNT(*) OVER () AS n FROM b) q",
    "SELECT x, GROUPING(x) FROM a GROUP BY ROLLUP (x)",
    "SELECT x, COUNT(*) FROM a GROUP BY ROLLUP (x) ORDER BY x",
    "SELECT * FROM a EXCEPT ALL SELECT * FROM a",
    "SELECT x FROM a WHERE x = ANY (SELECT 1) FOR UPDATE",
    "SELECT STRING_AGG(s, ',') FROM a WHERE x = ANY (SELECT 1)",
    "SELECT x FROM a FETCH FIRST 2 ROWS WITH TIES",
    "SELECT x FROM a WHERE x = ANY (SELECT 1) GROUP",
    "SELECT x FROM a WHERE x = ANY (SELECT 1",
    "SELECT SUBSTRING(s FROM x FOR 1) FROM a",
]


class Tables:
    """The same rows in both databases; the tables of PostgreSQL are its own, in public."""

    def __init__(self, address: str) -> None:
        self.postgres = psycopg.connect(address, autocommit=True)
        self.sqlite = sqlite3.connect(":memory:")
        for table, columns in COLUMNS.items():
            made = ", ".join(f"{name} {POSTGRES[kind]}" for name, kind in columns.items())
            self.postgres.execute(
                f"DROP TABLE IF EXISTS {table}; CREATE TABLE {table} ({made})".encode()
            )
            made = ", ".join(f"{name} {kind}" for name, kind in columns.items())
            self.sqlite.execute(f"CREATE TABLE {table} ({made})")

    def put(self, rows: dict[str, list[tuple[Any, ...]]]) -> None:
        self.postgres.execute(f"TRUNCATE {', '.join(COLUMNS)}".encode())
        for table, lines in rows.items():
            self.sqlite.execute(f"DELETE FROM {table}")
            for line in lines:
                self.postgres.execute(f"INSERT INTO {table} VALUES (%s, %s, %s)".encode(), line)
                self.sqlite.execute(f"INSERT INTO {table} VALUES (?, ?, ?)", line)

    def difference(self, text: str) -> Optional[str]:
        """How the two differ on a query."""
        from classroom.sql.rewrite import rewritten
        from classroom.sql.dialect import for_sqlite

        made = rewritten(text, COLUMNS) or for_sqlite(text)
        told = f"{text}\n{made}\n"
        with closing(self.postgres.cursor()) as cursor:
            wanted = [line_of(line) for line in cursor.execute(text.encode()).fetchall()]
        try:
            found = [line_of(line) for line in self.sqlite.execute(made).fetchall()]
        except sqlite3.Error as fault:
            return f"{told}SQLite: {fault}"
        is_ordered = text.rfind("ORDER BY") > text.rfind(")")
        if found == wanted if is_ordered else Counter(found) == Counter(wanted):
            return None
        return f"{told}PostgreSQL: {wanted}\nSQLite: {found}"

    def reads(self, text: str) -> bool:
        """Whether SQLite reads a text as it is."""
        try:
            self.sqlite.execute(text)
        except sqlite3.Error:
            return False
        return True

    def close(self) -> None:
        self.postgres.close()
        self.sqlite.close()


def line_of(line: Any) -> tuple[Any, ...]:
    return tuple(map(value_of, line))


def value_of(value: Any) -> Any:
    if isinstance(value, bool):
        return int(value)
    if isinstance(value, (float, Decimal)):
        return float(f"{value:.12g}")
    if isinstance(value, (date, datetime)):
        return value.isoformat(*([" "] if isinstance(value, datetime) else []))
    return value


def drawn(seed: int) -> dict[str, list[tuple[Any, ...]]]:
    made = random.Random(seed)

    def number() -> Any:
        return made.choice([None, 0, 1, 2, 3])

    texts = [None, "", "a", "A", "ab", "Ba", "b%", "a_b"]
    days = [None, "2024-02-29", "2023-12-31", "2024-07-04", "2021-01-01"]
    moments = [None, "2024-02-29 13:45:07", "2023-12-31 00:00:00", "2023-01-01 23:59:59"]
    return {
        "a": [(number(), number(), made.choice(texts)) for _ in range(made.randint(0, 5))],
        "b": [
            (number(), number(), made.choice(["a", "A%", *days])) for _ in range(made.randint(0, 4))
        ],
        "e": [
            (number(), made.choice(days), made.choice(moments)) for _ in range(made.randint(0, 3))
        ],
    }


def query_of(line: str, seed: int, turn: int) -> str:
    """A query of a line; the turns go through all forms of it."""
    made = random.Random(f"{line} {seed}")
    forms = {**LINES, **READ}[line]
    text = forms[turn % len(forms)]
    for word, values in (("{op}", SIGNS), ("{c}", CONDITIONS), ("{p}", PATTERNS)):
        text = text.replace(word, made.choice(values))
    return text


def differences(tables: Tables, lines: list[str], first: int, count: int) -> list[str]:
    """What differs in so many pairs of each line."""
    found = []
    for turn in range(count):
        seed = first + turn
        tables.put(drawn(seed))
        for line in lines:
            told = tables.difference(query_of(line, seed, turn))
            if told:
                found.append(f"{line}: seed {seed}\n{told}")
    return found


def main(about: str) -> int:
    parser = argparse.ArgumentParser(prog="compare_rewriting", description=about)
    parser.add_argument(
        "--count", type=int, default=1000, help="how many pairs of each line (1000)"
    )
    parser.add_argument(
        "--from", type=int, default=0, dest="first", help="the seed of the first pair (0)"
    )
    words = parser.parse_args()
    start = time.monotonic()
    lines = [*LINES, *READ]
    with server() as address, closing(Tables(address)) as tables:
        found = differences(tables, lines, words.first, words.count)
    print("\n\n".join(found[:10]))
    print(
        f"compare_rewriting: {words.count} pairs of each of {len(lines)} lines from seed"
        f" {words.first} in {time.monotonic() - start:.0f} seconds: {len(found)} differ"
    )
    return 1 if found else 0
