"""Tasks with several right queries: what agrees with any is right, and else the nearest counts."""
from __future__ import annotations

import csv
import re
from pathlib import Path

import pytest
from products import classroom
from served import serving

SCHEMA = "CREATE TABLE item (name TEXT PRIMARY KEY, city TEXT, price INTEGER);\n"
ROWS = "name,city,price\na,X,5\nb,X,6\nc,Y,1\nd,Y,\n"
STRICT = "SELECT name FROM item WHERE price > 5"
LOOSE = "SELECT name FROM item WHERE price >= 5"
NOT_CHEAPEST = "SELECT DISTINCT x.name FROM item x, item y WHERE x.price > y.price"


@pytest.fixture
def exercise(tmp_path: Path, ratest: Path) -> Path:
    folder = tmp_path / "exercise"
    folder.mkdir()
    (folder / "schema.sql").write_text(SCHEMA)
    (folder / "item.csv").write_text(ROWS)
    return folder


def task(folder: Path, name: str, references: list[str], **answers: str) -> None:
    (folder / name / "answers").mkdir(parents=True)
    for number, text in enumerate(references, 1):
        file = f"reference-{number}.sql" if number > 1 else "reference.sql"
        (folder / name / file).write_text(text)
    for answer, text in answers.items():
        (folder / name / f"answers/{answer}.sql").write_text(text)


def grades(folder: Path) -> dict[str, tuple[str, str, str]]:
    with open(folder / "results/grades.csv", encoding="utf-8", newline="") as file:
        return {
            line["answer"]: (line["grade"], line["rows"], line["fault"])
            for line in csv.DictReader(file)
        }


def test_right_by_any_and_else_by_the_nearest(exercise: Path) -> None:
    task(
        exercise,
        "1",
        [STRICT, LOOSE],
        first="SELECT name FROM item WHERE 5 < price",
        second="SELECT name FROM item WHERE NOT price < 5",
        neither="SELECT name FROM item WHERE price >= 1",
    )
    # Of no rows at all the first returns something over one row, the second over two.
    task(exercise, "2", ["SELECT name FROM item", NOT_CHEAPEST], far=f"{STRICT} AND price < 0")
    ran = classroom("grade", exercise)
    assert ran.returncode == 0, ran.stderr
    assert grades(exercise) == {
        "first": ("agrees", "", ""),
        "second": ("agrees", "", "compared with reference-2.sql"),
        "neither": ("differs", "1", ""),
        "far": ("differs", "2", "compared with reference-2.sql"),
    }
    told = [line for line in ran.stderr.splitlines() if "answer differently" in line]
    assert told == [
        "classroom: task 1: reference.sql and reference-2.sql answer differently on the rows item 1;"
        " an answer that agrees with either is right",
        "classroom: task 2: reference.sql and reference-2.sql answer differently on the rows item 1;"
        " an answer that agrees with either is right",
    ]
    kept = {path: path.stat().st_mtime_ns for path in (exercise / "results/runs").iterdir()}
    assert classroom("grade", exercise).returncode == 0
    again = {path: path.stat().st_mtime_ns for path in (exercise / "results/runs").iterdir()}
    assert again == kept


def test_a_database_tries_each_of_them(exercise: Path) -> None:
    task(
        exercise,
        "1",
        [
            "SELECT city, COUNT(*) FROM item GROUP BY city",
            "SELECT city, COUNT(price) FROM item GROUP BY city",
        ],
        all_="SELECT city, SUM(1) FROM item GROUP BY city",
        priced="SELECT city, SUM(price IS NOT NULL) FROM item GROUP BY city",
        neither="SELECT city, MAX(price) FROM item GROUP BY city",
        wrong="SELECT town, COUNT(*) FROM item GROUP BY town",
    )
    ran = classroom("grade", exercise)
    found = grades(exercise)
    assert found["all_"] == ("no difference found", "", "")
    assert found["priced"] == ("no difference found", "", "compared with reference-2.sql")
    assert found["neither"][0] == "differs" and found["wrong"][0] == "wrong SQL"
    assert "answer differently on the rows item 4;" in ran.stderr


def test_a_reference_that_is_refused_leaves_open_what_differs_from_the_others(
    exercise: Path,
) -> None:
    task(exercise, "1", [STRICT, "SELEC name"], right=f"{STRICT} AND price > 4", wrong=LOOSE)
    ran = classroom("grade", exercise)
    found = grades(exercise)
    assert found["right"] == ("agrees", "", "")
    assert found["wrong"][0] == "not graded" and "reference-2.sql" in found["wrong"][2]
    assert ran.returncode == 1 and "reference-2.sql" in ran.stdout


def test_pages_show_them_and_miss_none_that_changed(exercise: Path) -> None:
    task(exercise, "1", [STRICT, LOOSE], ann="SELECT name FROM item WHERE price IN (5, 6)")
    assert classroom("grade", exercise).returncode == 0
    page = (exercise / "results/teacher.html").read_text()
    assert "-- reference-2.sql" in page and "compared with reference-2.sql" in page
    made = classroom("feedback", exercise, "--reference")
    assert made.returncode == 0, made.stderr
    shown = (exercise / "results/feedback/ann.html").read_text()
    assert "&gt;= 5" in shown and "reference-2" not in shown
    (exercise / "1/reference-2.sql").write_text(STRICT)
    late = classroom("page", exercise)
    assert late.returncode == 1 and "reference-2.sql has changed since it was graded" in late.stderr
    (exercise / "1/reference-2.sql").unlink()
    late = classroom("page", exercise)
    assert late.returncode == 1 and "reference-2.sql has changed since it was graded" in late.stderr


def test_students_who_ask_are_compared_with_each(exercise: Path) -> None:
    task(exercise, "1", [STRICT, LOOSE])
    with serving(exercise) as server:
        assert server.ask("1", "SELECT name FROM item WHERE 5 < price").verdict == "agrees"
        assert server.ask("1", "SELECT name FROM item WHERE NOT price < 5").verdict == "agrees"
        other = server.ask("1", "SELECT name FROM item WHERE price >= 1")
        assert other.verdict == "differs on 1 row"
        assert not re.search("reference-2|compared with", other.body)


def test_an_exercise_without_rows_is_a_warning(exercise: Path) -> None:
    (exercise / "item.csv").write_text("name,city,price\n")
    task(exercise, "1", [STRICT], ann=LOOSE)
    assert "no table has a row" in classroom("grade", exercise).stderr
