"""What `grade` tells the teacher of a reference that has ties or fails on some rows."""
from __future__ import annotations

import csv
from pathlib import Path

import pytest
from products import classroom

SCHEMA = "CREATE TABLE item (id INTEGER PRIMARY KEY, name TEXT, city TEXT, price INTEGER);\n"
ROWS = "id,name,city,price\n1,c,X,5\n2,a,Y,5\n3,b,X,5\n4,d,Y,9\n5,e,,\n"
MOST = "SELECT city FROM item GROUP BY city ORDER BY COUNT(*) DESC"


@pytest.fixture
def exercise(tmp_path: Path, ratest: Path) -> Path:
    folder = tmp_path / "exercise"
    folder.mkdir()
    (folder / "schema.sql").write_text(SCHEMA)
    (folder / "item.csv").write_text(ROWS)
    return folder


def task(folder: Path, name: str, reference: str, **answers: str) -> None:
    (folder / name / "answers").mkdir(parents=True)
    (folder / name / "reference.sql").write_text(reference)
    for answer, text in answers.items():
        (folder / name / f"answers/{answer}.sql").write_text(text)


def grades(folder: Path) -> dict[tuple[str, str], str]:
    with open(folder / "results/grades.csv", encoding="utf-8", newline="") as file:
        return {(line["task"], line["answer"]): line["grade"] for line in csv.DictReader(file)}


def test_ties_and_failures_are_told_once_a_task(exercise: Path) -> None:
    task(
        exercise,
        "1",
        f"{MOST} LIMIT 1",
        right=f"{MOST}, city LIMIT 1",
        other=f"{MOST}, name LIMIT 1",
        wrong="SELECT city FROM item WHERE price > 5 ORDER BY city LIMIT 1",
    )
    overflow = (
        "SELECT city, MAX(CASE price WHEN 9 THEN abs(-9223372036854775807 - 1) ELSE price END)"
    )
    task(
        exercise,
        "2",
        f"{overflow} FROM item WHERE (SELECT COUNT(*) FROM item) < 3 GROUP BY city",
        right="SELECT city, MAX(price) FROM item WHERE (SELECT COUNT(*) FROM item) < 3 GROUP BY city",
    )
    task(exercise, "3", f"{MOST}, city", right=f"{MOST}, 1")
    ran = classroom("grade", exercise)
    told = [line for line in ran.stderr.splitlines() if "reference.sql" in line]
    assert len(told) == 2, ran.stderr
    # Of one city each, the rows 1 and 2 have as many items.
    assert "task 1: reference.sql has ties, for example on the rows item" in told[0]
    assert "with city as last keys of its ORDER BY it is determined" in told[0]
    assert "task 2: reference.sql fails on the rows item" in told[1] and "overflow" in told[1]
    found = grades(exercise)
    assert found["1", "right"] == "not determined" and found["3", "right"] == "no difference found"
    page = (exercise / "results/teacher.html").read_text(encoding="utf-8")
    assert page.count("reference.sql has ties, for example on the rows item") == 1
    assert page.count("reference.sql fails on the rows item") == 1
    # Not on a page for students, whose texts name nothing of the reference.
    page = (exercise / "results/students.html").read_text(encoding="utf-8")
    assert "Task 1" in page and "reference.sql" not in page
    # What is kept from before is told as it was.
    again = classroom("grade", exercise)
    assert [line for line in again.stderr.splitlines() if "reference.sql" in line] == told


def test_a_reference_that_is_determined_is_not_told(exercise: Path) -> None:
    task(
        exercise,
        "1",
        f"{MOST}, city LIMIT 1",
        right=f"{MOST}, city LIMIT 1",
        wrong=f"{MOST}, city DESC LIMIT 1",
    )
    ran = classroom("grade", exercise)
    assert "reference.sql" not in ran.stderr and "ties" not in ran.stderr
    assert grades(exercise)["1", "wrong"] == "differs"
