"""What SQLite has no word for, rewritten: PostgreSQL answers the text as it is with the same rows.
`REWRITING_COUNT` is another number of pairs of each line."""
from __future__ import annotations

import os
import sqlite3
from collections.abc import Iterator
from contextlib import closing

import products
import pytest

pytest.importorskip("sqlglot", reason="no sqlglot: apt-get install python3-sqlglot")

from compare.by_rewriting import (  # noqa: E402
    COLUMNS,
    LINES,
    READ,
    REFUSED,
    Tables,
    differences,
    query_of,
)

from classroom.sql.dialect import for_sqlite  # noqa: E402
from classroom.sql.rewrite import rewritten  # noqa: E402

COUNT = int(os.environ.get("REWRITING_COUNT", "20"))
EMPTY = "".join(
    f"CREATE TABLE {table} ({', '.join(f'{name} {kind}' for name, kind in columns.items())});"
    for table, columns in COLUMNS.items()
)


@pytest.fixture(scope="module")
def tables(server: products.Postgres | None) -> Iterator[Tables]:
    pytest.importorskip("psycopg", reason="no psycopg: apt-get install python3-psycopg")
    if server is None:
        pytest.skip("no psql or initdb: apt-get install postgresql")
    with closing(Tables(f"{server.place} dbname=postgres")) as made:
        yield made


@pytest.fixture
def sqlite() -> Iterator[sqlite3.Connection]:
    with closing(sqlite3.connect(":memory:")) as made:
        made.executescript(EMPTY)
        yield made


@pytest.mark.parametrize("line", [*LINES, *READ])
def test_postgres_answers_the_same(tables: Tables, line: str) -> None:
    found = differences(tables, [line], 0, COUNT)
    assert not found, found[0]


@pytest.mark.parametrize("line", LINES)
def test_sqlite_has_no_word_for_it(sqlite: sqlite3.Connection, line: str) -> None:
    for turn in range(len(LINES[line])):
        with pytest.raises(sqlite3.Error):
            sqlite.execute(query_of(line, 0, turn))


@pytest.mark.parametrize("text", REFUSED)
def test_what_is_not_the_same_for_certain_is_not_rewritten(text: str) -> None:
    assert rewritten(text, COLUMNS) is None


@pytest.mark.parametrize(
    "text",
    [
        "SELECT x FROM a",
        "SELECT x FROM a WHERE s LIKE 'a%' ORDER BY x",
        "SELECT x FROM a GROUP",
        "SELEC x FROM a",
        "",
        "DELETE FROM a WHERE x = ANY (SELECT 1)",
        "SELECT 1; SELECT x FROM a WHERE x = ANY (SELECT 1)",
    ],
)
def test_nothing_is_made_of_what_has_no_such_word(text: str) -> None:
    assert rewritten(text, COLUMNS) is None


def test_a_cut_text_ends_in_no_error(sqlite: sqlite3.Connection) -> None:
    for forms in LINES.values():
        for text in forms:
            whole = text.format(op="<", c="b.y = a.id", p="a%")
            for end in range(0, len(whole), 7):
                rewritten(whole[:end], COLUMNS)


def test_a_text_that_would_grow_without_a_bound_is_refused() -> None:
    text = "SELECT x FROM a WHERE x > ALL (SELECT 1)"
    for _ in range(40):
        text = f"SELECT x FROM a WHERE x > ALL ({text})"
    assert rewritten(text, COLUMNS) is None


def test_the_order_of_null_is_that_of_sqlite(sqlite: sqlite3.Connection) -> None:
    sqlite.execute("INSERT INTO a VALUES (1, NULL, NULL), (2, 5, NULL)")
    made = [
        rewritten(f"SELECT id FROM a ORDER BY x {words} FETCH FIRST 1 ROW ONLY", COLUMNS) or ""
        for words in ("", "DESC", "NULLS LAST", "DESC NULLS FIRST")
    ]
    assert [sqlite.execute(text).fetchall() for text in made] == [[(1,)], [(2,)], [(2,)], [(1,)]]


def test_the_names_of_columns_stay(sqlite: sqlite3.Connection) -> None:
    for text, names in {
        "SELECT x, id AS n FROM a EXCEPT ALL SELECT x, y FROM b": ["x", "n"],
        "SELECT DISTINCT ON (x) x, id AS n FROM a ORDER BY x": ["x", "n"],
        "SELECT t.p FROM a AS t(p)": ["p"],
    }.items():
        cursor = sqlite.execute(rewritten(text, COLUMNS) or "")
        assert [one[0] for one in cursor.description] == names


# By hand: a has x 1 and 2, b has y 2 and 3.
@pytest.mark.parametrize(
    "text, rows",
    [
        ("(SELECT x FROM a) UNION (SELECT y FROM b) ORDER BY x DESC", [3, 2, 1]),
        ("(SELECT x FROM a) ORDER BY x DESC", [2, 1]),
        ("SELECT q.x FROM ((SELECT x FROM a) ORDER BY x DESC LIMIT 1) q", [2]),
        ("SELECT x FROM a UNION SELECT y FROM b INTERSECT SELECT 2 ORDER BY x DESC", [2, 1]),
        ("SELECT x FROM a UNION SELECT y FROM b INTERSECT SELECT y FROM b LIMIT 1", [1]),
        ("SELECT x FROM a WHERE ((SELECT MAX(y) FROM b) = 3 AND x = 1)", [1]),
        ("SELECT x FROM a WHERE x IN ((SELECT MIN(y) FROM b), 7)", [2]),
        ("SELECT COUNT(*) FROM ((SELECT x FROM a) UNION (SELECT y FROM b)) q", [3]),
        ("SELECT x FROM a EXCEPT (SELECT y FROM b)  ORDER  BY  x ;", [1]),
    ],
)
def test_operands_in_parentheses(sqlite: sqlite3.Connection, text: str, rows: list[int]) -> None:
    sqlite.execute("INSERT INTO a (x) VALUES (1), (2)")
    sqlite.execute("INSERT INTO b (y) VALUES (2), (3)")
    assert [row[0] for row in sqlite.execute(for_sqlite(text))] == rows
