"""Hostile queries over SQLite: each is refused, or ended by the limit that is named, and changes
nothing."""
from __future__ import annotations

import json
import re
import signal
import time
from pathlib import Path

import pytest
import shop
from products import TOP

from classroom.engines import run_child as asking
from classroom.engines.run_child import Options, trier
from classroom.engines.engine import Bars, Refused, Stopped, TooMuch
from classroom.exercise.part_masks import Parts
from classroom.engines.sqlite import Sqlite, Stored
from classroom.verdict.verdict import Cause, Refusal

ITEMS = ", ".join(f"item i{at}" for at in range(12))
LONG = "hex(zeroblob(32000))"
TWO_TO = (
    "WITH a0 AS (SELECT 1 x UNION SELECT 2), "
    + ", ".join(f"a{at} AS (SELECT p.x FROM a{at - 1} p, a{at - 1} q)" for at in range(1, 9))
    + " SELECT count(*) FROM a8"
)

# The query, and what ends it with the words of the limit; None where it is answered in time.
HOSTILE: dict[str, tuple[str, type[Stopped], str]] = {
    "endless recursion": (
        "WITH RECURSIVE r(n) AS (SELECT 1 UNION ALL SELECT n + 1 FROM r) SELECT count(*) FROM r",
        TooMuch,
        "time",
    ),
    "endless rows": (
        "WITH RECURSIVE r(n) AS (SELECT 1 UNION ALL SELECT n + 1 FROM r) SELECT n FROM r",
        TooMuch,
        "rows|time",
    ),
    "twelve tables": (f"SELECT count(*) FROM {ITEMS}", TooMuch, "time"),
    "views in views": (TWO_TO, TooMuch, "time|size"),
    "growing texts": (
        (
            "WITH RECURSIVE r(n, t) AS (SELECT 1, hex(zeroblob(30000)) UNION SELECT n + 1, t || n"
            " FROM r) SELECT max(t) FROM r"
        ),
        TooMuch,
        "memory|size|time",
    ),
    "DISTINCT over much": (
        (
            "WITH RECURSIVE r(n) AS (SELECT 1 UNION ALL SELECT n + 1 FROM r LIMIT 100000) "
            "SELECT count(*) FROM (SELECT DISTINCT hex(zeroblob(30000)) || n FROM r)"
        ),
        TooMuch,
        "memory|time",
    ),
    "a sorter over much": (
        (
            "WITH RECURSIVE r(n) AS (SELECT 1 UNION ALL SELECT n + 1 FROM r LIMIT 10000000) "
            "SELECT hex(zeroblob(30000)) || n FROM r ORDER BY 1 DESC LIMIT 1"
        ),
        TooMuch,
        "memory|time",
    ),
    "zeroblob": ("SELECT zeroblob(1000000000)", TooMuch, "size"),
    "group_concat": (f"SELECT group_concat({LONG}) FROM item a, item b", TooMuch, "size"),
    "replace": (f"SELECT length(replace(replace({LONG}, '0', '00'), '0', '00'))", TooMuch, "size"),
    "printf": ("SELECT printf('%.*c', 1000000000, 'x')", Bars, "printf"),
    "format": ("SELECT format('%.*c', 1000000000, 'x')", Bars, "format"),
    "instr": (
        (
            "WITH RECURSIVE r(n) AS (SELECT 1 UNION ALL SELECT n + 1 FROM r LIMIT 1000) SELECT"
            f" sum(instr({LONG}, substr({LONG}, 1, 32000) || n)) FROM r, item a, item b"
        ),
        TooMuch,
        "time",
    ),
    "LIKE": (
        (
            f"SELECT sum(({LONG} || a.qty) LIKE '{'%0' * 40}%x') FROM item a, item b, item c, item"
            " d, item e"
        ),
        TooMuch,
        "time",
    ),
    "a long pattern": (f"SELECT {LONG} LIKE {LONG}", TooMuch, "pattern"),
    "random": ("SELECT random()", Bars, "random"),
    "randomblob": ("SELECT randomblob(8)", Bars, "randomblob"),
    "load_extension": ("SELECT load_extension('x.so')", Bars, "load_extension"),
    "fts3_tokenizer": ("SELECT fts3_tokenizer('simple')", Stopped, "fts3_tokenizer"),
    "readfile": ("SELECT readfile('secret')", Refused, "no such function"),
    "REGEXP": ("SELECT 'a' REGEXP '(a+)+$'", Refused, "no such function"),
    "version": ("SELECT sqlite_version()", Bars, "sqlite_version"),
    "ATTACH": ("ATTACH 'evil.db' AS e", Bars, "SELECT"),
    "PRAGMA": ("PRAGMA hard_heap_limit = 0", Bars, "SELECT"),
    "a pragma as a table": ("SELECT * FROM pragma_hard_heap_limit(0)", Bars, "something else"),
    "VACUUM INTO": ("VACUUM INTO 'evil.db'", Bars, "SELECT"),
    "DELETE": ("DELETE FROM item", Bars, "SELECT"),
    "WITH DELETE": ("WITH d AS (SELECT 1) DELETE FROM item", Bars, "something else"),
    "WITH INSERT": (
        "WITH d AS (SELECT 1) INSERT INTO item SELECT 1, 2, 3 FROM d",
        Bars,
        "something else",
    ),
    "sqlite_master": ("SELECT * FROM sqlite_master", Bars, "sqlite_master"),
    "sqlite_schema": ("SELECT * FROM sqlite_schema", Bars, "sqlite_"),
    "dbstat": ("SELECT * FROM dbstat", Bars, "something else"),
    "date of now": ("SELECT date('now')", Bars, "clock"),
    "date of NOW": ("SELECT date(' NOW')", Bars, "clock"),
    "date without arguments": ("SELECT date()", Bars, "clock"),
    "strftime of one": ("SELECT strftime('%s')", Bars, "clock"),
    "current_date": ("SELECT current_date", Bars, "current_date"),
    "EXPLAIN": ("EXPLAIN SELECT * FROM item", Bars, "SELECT"),
    "two statements": ("SELECT 1; DELETE FROM item", Bars, "one statement"),
    "COMMIT": ("COMMIT", Bars, "SELECT"),
    "2,000 columns": (f"SELECT {', '.join(['1'] * 2000)}", TooMuch, "columns"),
    "depth": (f"SELECT {'(' * 900}1{')' * 900}", TooMuch, "depth|overflow"),
    "NOT 900 times": (f"SELECT {'NOT ' * 900}1", TooMuch, "depth|overflow"),
    "a compound of 400": (" UNION ".join(["SELECT 1"] * 400), TooMuch, "compound"),
    "a byte that is no text": ("SELECT 1 \0", Refused, "byte"),
    "a text of 70,000": (f"SELECT '{'x' * 70_000}'", TooMuch, "size"),
    "nothing": ("", Bars, "SELECT"),
    "a comment": ("-- SELECT 1", Bars, "SELECT"),
}


@pytest.mark.parametrize("name", HOSTILE)
def test_hostile(name: str) -> None:
    text, kind, words = HOSTILE[name]
    of = shop.material(items=12)
    parts = Parts(of.pool)
    whole = (1 << len(parts.rows)) - 1
    begun = time.monotonic()
    engine = None
    with pytest.raises(kind) as raised:
        engine = Sqlite(of, parts, "SELECT ord FROM item", text, seconds=0.5)
        engine.answers(whole)
    assert re.search(words, raised.value.message) and raised.value.which == 1, raised.value.message
    assert time.monotonic() - begun < 30
    if engine:
        assert engine.stored[0].db.execute("SELECT count(*) FROM item").fetchone() == (12,)


def test_one_step_that_doesn_t_end_is_ended_with_its_process() -> None:
    """A single call of instr over texts of 65,536 characters is short; what isn't, the process's
    time ends."""
    of = shop.material()
    with trier(of, Options(seconds=0.5)) as made:
        begun = time.monotonic()
        found = made.ask("SELECT ord FROM item", HOSTILE["twelve tables"][0])
    assert found.outcome == Refusal(False, Cause.LIMIT, "time")
    assert time.monotonic() - begun < 30


def test_the_reference_has_the_same_limits() -> None:
    found = shop.tried("SELECT printf('%d', 1)", "SELECT '1'").outcome
    assert isinstance(found, Refusal) and found.cause == Cause.BARRED and found.is_reference


def test_ordinary_functions_are_not_barred() -> None:
    for text in (
        "SELECT strftime('%Y', day) FROM orders",
        "SELECT date(day, '+1 day') FROM orders",
        (
            "SELECT upper(name), round(avg(id), 2), coalesce(city, '-'), substr(name, 1, 2) FROM"
            " customer GROUP BY city"
        ),
        "SELECT julianday(day) - julianday('2024-01-01') FROM orders",
        "VALUES (1), (2)",
        "SELECT row_number() OVER (ORDER BY id) FROM customer",
    ):
        Sqlite(shop.material(), Parts(shop.pool()), text, text).close()


def test_rows_that_are_stored_the_other_way_round_are_the_same() -> None:
    of = shop.material(items=12)
    parts = Parts(of.pool)
    whole = (1 << len(parts.rows)) - 1
    ahead, back = (Stored(of, parts, backwards, 1.0) for backwards in (False, True))
    for stored in (ahead, back):
        stored.load(whole)
    for table in of.names():
        lines = [stored.db.execute(f"SELECT * FROM {table}").fetchall() for stored in (ahead, back)]
        assert len(lines[0]) > 1 and lines[0] == lines[1][::-1], table


def test_a_step_without_an_end_takes_no_more_of_the_processor(
    tmp_path: Path, monkeypatch: pytest.MonkeyPatch
) -> None:
    """What no limit of SQLite ends ends with the process, whatever the clock says."""
    (tmp_path / "child.py").write_text(
        f"import sys; sys.path.insert(0, {str(TOP / 'python')!r})\nimport classroom.engines.child as"
        " child\nchild.MORE_SECONDS = 0.5\ndef spin(*_):\n    while True: pass\nchild.tried ="
        " spin\nchild.main()\n"
    )
    monkeypatch.setattr(asking, "CHILD", tmp_path / "child.py")
    with asking.trier(shop.material(), Options(seconds=0.4)) as made:
        ran = made.processes.ask(
            str(made.material),
            json.dumps({"reference": "SELECT 1", "answer": "SELECT 1", "seconds": 0.4}).encode(),
        )
    assert ran.status == -signal.SIGXCPU
