"""Columns that schema.sql has not are in a witness only where a query names them."""
from __future__ import annotations

import sqlite3
from pathlib import Path

import products
import pytest

from classroom.engines.child import tried
from classroom.exercise import material
from classroom.exercise.shown_columns import hidden_of, with_hidden
from classroom.sql.schema import tables_of
from classroom.verdict.verdict import Differs
from classroom.views import draw_tried

SQLITE = """CREATE TABLE student (id INTEGER, name VARCHAR(30) NOT NULL CHECK (length(name) > 1 OR secret > 1),
  rate REAL CHECK (rate >= 0), secret REAL, PRIMARY KEY (id, secret)) WITHOUT ROWID;
CREATE TABLE reg (student INTEGER, course TEXT, grade INT, weight REAL, UNIQUE (course, weight));
CREATE VIEW best AS SELECT name, rate FROM student WHERE rate > 2;
INSERT INTO student VALUES (1, 'Mary', 1.5, 77.5), (2, 'John', 2.5, 88.5);
INSERT INTO reg VALUES (1, 'logic', 5, 99.5), (2, 'logic', 3, 66.5);
"""
JOINED = "SELECT name, grade FROM student JOIN reg ON student = id"
# Two queries, and the columns of each table that are shown beside schema.sql's.
CASES = [
    (JOINED, f"{JOINED} WHERE grade > 3", []),
    (JOINED, f"{JOINED} WHERE rate > 2", ["rate"]),
    (f"{JOINED} WHERE RATE > 2", JOINED, ["rate"]),
    (JOINED, f'{JOINED} WHERE reg."weight" < 70', ["weight"]),
    ("SELECT count(*) * 2 FROM student", "SELECT count(*) FROM student", []),
    ("SELECT name FROM student", "SELECT name FROM best", ["rate"]),
    ("SELECT * FROM student", "SELECT * FROM student WHERE id = 1", ["rate", "secret", "weight"]),
    (
        "SELECT s.* FROM student s",
        "SELECT s.* FROM student s WHERE id = 2",
        ["rate", "secret", "weight"],
    ),
    (
        "SELECT name FROM student",
        "SELECT name FROM student NATURAL JOIN reg WHERE grade = 1",
        ["rate", "secret", "weight"],
    ),
    ("SELECT name FROM student", "SELECT name || 'rate' FROM student", []),
]


@pytest.fixture
def folder(tmp_path: Path) -> Path:
    database = sqlite3.connect(tmp_path / "school.db")
    database.executescript(SQLITE)
    database.close()
    made = products.classroom("import", tmp_path / "school.db", tmp_path / "class")
    assert made.returncode == 0, made.stderr
    return tmp_path / "class"


@pytest.mark.parametrize("reference, answer, more", CASES)
def test_columns_that_are_shown(folder: Path, reference: str, answer: str, more: list[str]) -> None:
    whole = material.read(folder)
    assert whole is not None
    whole = with_hidden(whole, tables_of((folder / "schema.sql").read_text()))
    assert whole.hidden == (("rate", "secret"), ("weight",))
    hidden = {name for names in hidden_of(whole, (reference, answer)) for name in names}
    assert {"rate", "secret", "weight"} - hidden == set(more)
    found = tried(whole, {"reference": reference, "answer": answer}).outcome
    assert isinstance(found, Differs)
    for table in found.tables:
        assert hidden.isdisjoint(table.columns)
        assert not any(name in table.statement for name in hidden)
    for row in found.kept:
        assert len(row.cells) == len({of.name: of for of in found.tables}[row.table].columns)
    # The rows that one can copy still tell the two queries, as the witness says.
    text = draw_tried.sql(found)
    assert not any(name in text for name in hidden)
    database = sqlite3.connect(":memory:")
    database.executescript(text)
    for view in whole.views:
        if view.name in answer:
            database.execute(view.statement)
    answers = [sorted(database.execute(query).fetchall()) for query in (reference, answer)]
    assert answers == [sorted(found.reference.lines), sorted(found.answer.lines)]
    assert answers[0] != answers[1]


def test_a_students_page_has_no_column_that_is_left_out(folder: Path, ratest: Path) -> None:
    (folder / "1/answers").mkdir(parents=True)
    (folder / "1/reference.sql").write_text(f"{JOINED} ORDER BY 1")
    (folder / "1/answers/anna.sql").write_text(f"{JOINED} AND grade > 3 ORDER BY 1")
    for word in ("grade", "feedback"):
        done = products.classroom(
            word, folder, env={"RATEST": str(ratest), "PATH": "/usr/bin:/bin"}
        )
        assert done.returncode == 0, done.stderr
    page = (folder / "results/feedback/anna.md").read_text()
    assert "John" in page, page
    for word in ("rate", "secret", "weight", "88", "66"):
        assert word not in page, page
