"""What is left out of a handed-in text, what is told of it, and what is no query."""
from __future__ import annotations

import time

import pytest

from classroom.base.files import NotRead
from classroom.sql.clean import MOST_BYTES, odd_signs, text_of
from classroom.sql.tokens import Dialect


@pytest.mark.parametrize(
    "raw, query, told",
    [
        (".headers on\nSELECT a;", "SELECT a;", ["without .headers on in line 1"]),
        ("\\c beers\nSELECT a;", "SELECT a;", [r"without \c beers in line 1"]),
        ("SELECT a\n\\g\n", "SELECT a", [r"without \g in line 2"]),
        (
            "```sql\nSELECT a;\n```\n",
            "SELECT a;",
            ["without what begins line 1", "without what begins line 3"],
        ),
        (
            "USE beers\nGO\nSELECT a\nGO\n",
            "SELECT a",
            ["without USE beers in line 1", "without GO in line 2", "without GO in line 4"],
        ),
        (
            "BEGIN; SELECT a; COMMIT;",
            "SELECT a;",
            ["without BEGIN; in line 1", "without COMMIT; in line 1"],
        ),
        ("SELECT a\n/\n", "SELECT a", ["without / in line 2"]),
        (
            "sqlite> SELECT a\n   ...> FROM b;\n",
            "SELECT a\n        FROM b;",
            ["without sqlite> in line 1", "without ...> in line 2"],
        ),
        (
            "beers=# SELECT a\nbeers-# FROM b;\n",
            "SELECT a\n        FROM b;",
            ["without beers=# in line 1", "without beers-# in line 2"],
        ),
        ("SET search_path TO x;\nSELECT a", "SELECT a", ["without what begins line 1"]),
        ("EXPLAIN QUERY PLAN SELECT a", "SELECT a", ["without EXPLAIN QUERY PLAN in line 1"]),
        ("EXPLAIN (SELECT a)", "(SELECT a)", ["without EXPLAIN in line 1"]),
        (".a\n.b\n.c\n.d\n.e\nSELECT a", "SELECT a", None),
        # What looks alike and belongs to the query.
        ("SELECT '\n.a\n\\c\nGO\n```\n' FROM t", "SELECT '\n.a\n\\c\nGO\n```\n' FROM t", []),
        ("/*\nGO\n.a\n*/ SELECT a", "/*\nGO\n.a\n*/ SELECT a", []),
        ("SELECT a\n/\nb FROM t", "SELECT a\n/\nb FROM t", []),
        ("SELECT t\n.a FROM t", "SELECT t\n.a FROM t", []),
        ("SELECT a\nFROM t\nEND", "SELECT a\nFROM t\nEND", []),
        ("SELECT data\n-> 'a' FROM t", "SELECT data\n-> 'a' FROM t", []),
        ("SELECT a goes FROM go", "SELECT a goes FROM go", []),
    ],
)
def test_wrappers(raw: str, query: str, told: list[str] | None) -> None:
    found = text_of(raw.encode())
    assert found.whole == raw.encode()
    assert found.query.decode().strip(" \n;") == query.rstrip(";")
    # It stands where it stood.
    begin = raw.index(query.rstrip(";").split("\n", maxsplit=1)[0])
    assert found.query.decode().index(query.rstrip(";")) == begin
    if told is None:
        assert found.remarks[-1] == "and 2 more of the kind" and len(found.remarks) == 4
    else:
        assert list(found.remarks) == told


@pytest.mark.parametrize(
    "raw, told",
    [
        ("INSERT INTO t VALUES (1)", "it is an INSERT, and no query"),
        ("update t set a = 1;", "it is an UPDATE, and no query"),
        ("DELETE FROM t", "it is a DELETE, and no query"),
        ("CREATE OR REPLACE VIEW v AS SELECT 1", "it is a CREATE VIEW, and no query"),
        ("CREATE TEMP TABLE v AS SELECT 1", "it is a CREATE TABLE, and no query"),
        ("BEGIN; DROP TABLE t; COMMIT", "it is a DROP TABLE, and no query"),
        ("SELECT a FROM t\nGO\nSELECT b FROM t\nGO", "more than one statement"),
        ("SELECT a; SELECT b", "more than one statement"),
        ("\\c x\nSELECT a;\nSELECT b;", "more than one statement"),
    ],
)
def test_no_query(raw: str, told: str) -> None:
    with pytest.raises(NotRead) as fault:
        text_of(raw.encode())
    assert str(fault.value) == told


def test_odd_signs() -> None:
    text = "SELECT\u00a0a – ‘x’\nFROM\u200bt -- ‘\nWHERE b = '–' AND \"’\" = 1\u2026"
    assert odd_signs(text) == [
        "a no-break space at line 1, column 7",
        "a dash for a minus sign at line 1, column 10",
        "a typographic quote at line 1, column 12",
        "a typographic quote at line 1, column 14",
        "a space without width at line 2, column 5",
        "an ellipsis at line 3, column 26",
    ]
    assert text_of(text.encode()).remarks[3:] == ("and 3 more of the kind",)


def test_a_dialect_tells_where_a_text_ends() -> None:
    text = b"SELECT $$;$$, E'a\\';' FROM t;"
    assert text_of(text, Dialect.POSTGRESQL).query == text
    with pytest.raises(NotRead, match="more than one statement"):
        text_of(b"SELECT E'a\\'; SELECT 1", Dialect.SQLITE)


LINES = (
    "```\n",
    ".a\n",
    "\\c\n",
    "GO\n",
    "/\n",
    "sqlite> \n",
    "a=# \n",
    "->\n",
    "use\n",
    "set a;",
    "begin;",
    "explain ",
    "explain(",
    "explain (costs ",
    ";",
    "\n",
    "‘",
    "` ",
    "'",
    "/*\n",
    "go 1 ",
)


@pytest.mark.parametrize("dialect", Dialect)
@pytest.mark.parametrize("piece", LINES)
def test_time_is_linear(piece: str, dialect: Dialect) -> None:
    """With wide bounds: four times the length may take eight times the time and half a second."""

    def taken(length: int) -> float:
        raw = piece.encode() * (length // len(piece.encode()))
        begin = time.process_time()
        try:
            text_of(raw, dialect)
        except NotRead:
            pass
        return time.process_time() - begin

    short, long = taken(MOST_BYTES // 4), taken(MOST_BYTES)
    assert long < 5 and long < 8 * short + 0.5
