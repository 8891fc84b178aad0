"""Texts that would take the machine, asked of the rows: each is refused or ended, and nothing is
written."""
from __future__ import annotations

import time
from pathlib import Path

import pytest

from classroom.exercise import sources
from classroom.engines.sample import Base

HOSTILE = (
    "SELECT zeroblob(1000000000)",
    "SELECT printf('%.*c', 1000000000, 'x')",
    "SELECT format('%.*c', 1000000000, 'x')",
    "ATTACH '/tmp/x.db' AS other",
    "PRAGMA temp_store_directory = '/tmp'",
    "VACUUM INTO '/tmp/x.db'",
    "INSERT INTO t VALUES (9, 'z')",
    "DELETE FROM t",
    "DROP TABLE t",
    "CREATE TABLE z (a)",
    "SELECT * FROM sqlite_master",
    "SELECT load_extension('x')",
    "SELECT randomblob(1000000000)",
    "EXPLAIN SELECT 1; SELECT 2",
    "SELECT 1 FROM t; DROP TABLE t",
    "SELECT '" + "x" * 100_000 + "'",
    "WITH RECURSIVE c(x) AS (SELECT 1 UNION ALL SELECT x + 1 FROM c) SELECT x FROM c",
    (
        "WITH RECURSIVE c(x) AS (SELECT 'xxxxxxxx' UNION ALL SELECT x || x FROM c) SELECT"
        " max(length(x)) FROM c"
    ),
    "SELECT count(*) FROM " + ", ".join(f"t AS t{number}" for number in range(30)),
)


@pytest.fixture(scope="module")
def rows(tmp_path_factory: pytest.TempPathFactory) -> Base:
    folder = tmp_path_factory.mktemp("hostile")
    (folder / "schema.sql").write_text("CREATE TABLE t (a INTEGER PRIMARY KEY, n TEXT);")
    (folder / "t.csv").write_text("a,n\n1,x\n2,y\n3,\n4,z\n5,w\n")
    return Base(sources.of_exercise(folder), 3)


@pytest.mark.parametrize("text", HOSTILE, ids=[text[:30] for text in HOSTILE])
def test_it_is_ended(text: str, rows: Base) -> None:
    begun = time.monotonic()
    assert rows.answer(len(rows.parts) - 1, text) is None
    assert time.monotonic() - begun < 30
    assert rows.answer(len(rows.parts) - 1, "SELECT count(*) FROM t") == (1, frozenset([(5,)]))


def test_no_file_is_left(rows: Base, tmp_path: Path) -> None:
    place = tmp_path / "made.db"
    for text in (f"ATTACH '{place}' AS other", f"VACUUM INTO '{place}'"):
        assert rows.answer(0, text) is None and not place.exists()
