"""References are read as answers are: without what tools put around a query, in the engine's
dialect."""
from __future__ import annotations

import shutil
from pathlib import Path

import products
import pytest

from classroom.exercise.exercise import load

QUERY = "SELECT bar FROM serves WHERE price > 3"
# As tools write it, and what the teacher is told.
WRAPPED = {
    ".headers on\n" + QUERY: "without .headers on in line 1",
    "```sql\n" + QUERY + ";\n```\n": "without what begins line 1",
    "USE beers;\nGO\n" + QUERY + "\nGO\n": "without USE beers; in line 1",
    "BEGIN;\n" + QUERY + ";\nCOMMIT;\n": "without COMMIT; in line 3",
    "sqlite> " + QUERY + ";": "without sqlite> in line 1",
}


@pytest.fixture
def folder(tmp_path: Path) -> Path:
    made = tmp_path / "class"
    (made / "1/answers").mkdir(parents=True)
    for path in (products.TOP / "examples/beers").glob("*.*"):
        if path.name == "schema.sql" or path.suffix == ".csv":
            shutil.copy(path, made)
    (made / "1/reference.sql").write_text(QUERY)
    (made / "1/answers/anna.sql").write_text(QUERY)
    (made / "1/answers/ben.sql").write_text("SELECT bar FROM serves")
    return made


def grade(folder: Path, ratest: Path) -> tuple[str, str]:
    done = products.classroom(
        "grade", folder, env={"RATEST": str(ratest.absolute()), "PATH": "/usr/bin:/bin"}
    )
    # Without how long it took.
    lines = (folder / "results/grades.csv").read_text().splitlines()
    return "\n".join(",".join(line.split(",")[:6]) for line in lines), done.stderr


def test_a_wrapped_reference_is_the_query_in_it(folder: Path, ratest: Path) -> None:
    plain, told = grade(folder, ratest)
    assert ",anna," in plain and "reference.sql" not in told
    assert {line.split(",")[2] for line in plain.splitlines()[1:]} == {"agrees", "differs"}
    for text, remark in WRAPPED.items():
        (folder / "1/reference.sql").write_text(text)
        shutil.rmtree(folder / "results")
        found, told = grade(folder, ratest)
        assert found == plain, text
        assert f"task 1: reference.sql: {remark}\n" in told, (text, told)


def test_a_plain_reference_keeps_its_bytes(folder: Path) -> None:
    """So what was graded before is not graded anew."""
    for text in (b"\xef\xbb\xbf" + QUERY.encode(), f"-- one\r\n {QUERY} ; -- two\n".encode(), b""):
        (folder / "1/reference.sql").write_bytes(text)
        assert load(folder).tasks[0].reference == text


def test_a_reference_of_two_queries_is_named(folder: Path, ratest: Path) -> None:
    (folder / "1/reference.sql").write_text(f"{QUERY}; {QUERY}")
    found, told = grade(folder, ratest)
    assert "task 1 is not graded: reference.sql: more than one statement\n" in told
    assert "not graded" in found and "agrees" not in found
    (folder / "1/reference.sql").write_text("INSERT INTO serves SELECT * FROM serves")
    assert load(folder).tasks[0].fault == "reference.sql: it is an INSERT, and no query"


@pytest.mark.parametrize("kept", ["engine", "full.sql"])
def test_texts_are_read_in_the_dialect_of_the_engine(folder: Path, kept: str) -> None:
    r"""In PostgreSQL `E'\''` is a text of one quote; in SQLite it ends before the last sign."""
    text = r"SELECT bar FROM serves WHERE bar <> E'\'; SELECT bar FROM serves --'"
    for name in ("reference.sql", "answers/anna.sql"):
        (folder / "1" / name).write_text(text)
    of = load(folder).tasks[0]
    assert of.fault == "reference.sql: more than one statement"
    assert of.answers[0].fault == "more than one statement"
    if kept == "engine":
        (folder / "exercise.toml").write_text(
            'engine = "postgresql://a@b/c"\nengine_asker = "postgresql://d@b/c"\n'
        )
    else:
        (folder / kept).write_text("")
    of = load(folder).tasks[0]
    assert (of.fault, of.reference) == ("", text.encode())
    assert (of.answers[0].fault, of.answers[0].text.query) == ("", text.encode())
