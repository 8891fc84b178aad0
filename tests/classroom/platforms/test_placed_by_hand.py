"""What a teacher places by hand: `--place`, and class/placed.csv."""
from __future__ import annotations

import csv
from pathlib import Path

import made_archives
import pytest
from products import classroom

FILES = [
    ("anna/homework.sql", "SELECT 1\n"),
    ("anna/other.sql", "SELECT 2\n"),
    ("ben/1.sql", "SELECT 3\n"),
]


@pytest.fixture
def exercise(tmp_path: Path) -> Path:
    folder = tmp_path / "exercise"
    for task in ("1", "2"):
        (folder / task).mkdir(parents=True)
        (folder / task / "reference.sql").write_text("SELECT a FROM t\n")
    (folder / "schema.sql").write_text("CREATE TABLE t (a INTEGER PRIMARY KEY);\n")
    (folder / "t.csv").write_text("a\n1\n")
    return folder


@pytest.fixture
def archive(tmp_path: Path) -> Path:
    return Path(made_archives.written(tmp_path / "x.zip", FILES))


def answers(exercise: Path) -> dict[str, str]:
    found = exercise.glob("*/answers/*.sql")
    return {f"{path.parent.parent.name}/{path.stem}": path.read_text() for path in found}


def states(exercise: Path) -> dict[str, str]:
    with open(exercise / "class/collected.csv", encoding="utf-8", newline="") as file:
        return {row["member"]: row["state"] for row in csv.DictReader(file)}


def test_a_file_is_placed_and_stays_so(exercise: Path, archive: Path) -> None:
    ran = classroom("collect", archive, exercise, "--place", "anna/homework.sql", "anna", "2")
    assert ran.returncode == 1 and ran.stdout.endswith(", 1 not placed\n")
    assert answers(exercise) == {"2/anna": "SELECT 1\n", "1/ben": "SELECT 3\n"}
    assert states(exercise) == {
        "anna/homework.sql": "placed",
        "anna/other.sql": "unplaced",
        "ben/1.sql": "placed",
    }
    written = (exercise / "class/placed.csv").read_text()
    assert written == "file,student,task\nanna/homework.sql,anna,2\n"
    # A second call keeps to it; so does one that places more.
    (exercise / "2/answers/anna.sql").unlink()
    ran = classroom("collect", archive, exercise, "--place", "anna/other.sql", "anna", "1")
    assert ran.returncode == 0, ran.stderr
    assert answers(exercise) == {
        "1/anna": "SELECT 2\n",
        "2/anna": "SELECT 1\n",
        "1/ben": "SELECT 3\n",
    }


def test_it_goes_before_what_the_names_say(exercise: Path, archive: Path) -> None:
    ran = classroom("collect", archive, exercise, "--place", "anna/homework.sql", "ben", "1")
    assert answers(exercise) == {"1/ben": "SELECT 1\n"}
    assert states(exercise)["ben/1.sql"] == "older" and ", 1 passed over" in ran.stdout


@pytest.mark.parametrize(
    ("student", "task", "why"),
    [
        ("anna", "3", "there is no task 3"),
        ("eve", "1", "the class list has no student eve"),
    ],
)
def test_what_is_wrong_with_a_place(
    exercise: Path, archive: Path, student: str, task: str, why: str
) -> None:
    (exercise / "class").mkdir()
    (exercise / "class/students.csv").write_text("id,name\nanna,Anna\nben,Ben\n")
    ran = classroom("collect", archive, exercise, "--place", "anna/homework.sql", student, task)
    assert (ran.returncode, answers(exercise)) == (1, {}) and why in ran.stderr
    (exercise / "class/placed.csv").write_text(
        f"file,student,task\nanna/other.sql,anna,1\nanna/homework.sql,{student},{task}\n"
    )
    ran = classroom("collect", archive, exercise)
    assert (ran.returncode, answers(exercise)) == (1, {})
    assert f"class/placed.csv: line 3: {why}" in ran.stderr


def test_an_id_can_not_lead_out_of_the_folder(exercise: Path, archive: Path) -> None:
    ran = classroom("collect", archive, exercise, "--place", "anna/homework.sql", "a/../eve", "1")
    assert (ran.returncode, answers(exercise)) == (1, {})
    assert "a sign that no name of a file may have" in ran.stderr


def test_a_place_of_another_archive_is_named(exercise: Path, archive: Path) -> None:
    ran = classroom("collect", archive, exercise, "--place", "carla/1.sql", "carla", "1")
    assert "placed by hand, and not in this archive: carla/1.sql" in ran.stderr
    assert set(answers(exercise)) == {"1/ben"}


def test_a_dry_run_prints_where_each_file_goes(exercise: Path, archive: Path) -> None:
    ran = classroom(
        "collect", archive, exercise, "--dry-run", "--place", "anna/homework.sql", "anna", "2"
    )
    assert ran.stdout.splitlines()[:2] == [
        "ben/1.sql: task 1 of ben",
        "anna/homework.sql: task 2 of anna",
    ]
    assert not (exercise / "class").exists() and not answers(exercise)


def test_a_copy_and_an_older_file_are_told_apart(exercise: Path, tmp_path: Path) -> None:
    files = [
        ("ana_1_10_1.sql", "SELECT 1\n"),
        ("ana_1_11_1.sql", "SELECT 2\n"),
        ("ana_1_12_1.sql", "SELECT 2\n"),
    ]
    ran = classroom("collect", made_archives.written(tmp_path / "x.zip", files), exercise)
    assert ran.returncode == 0 and answers(exercise) == {"1/ana": "SELECT 2\n"}
    assert states(exercise) == {
        "ana_1_10_1.sql": "older",
        "ana_1_11_1.sql": "same",
        "ana_1_12_1.sql": "placed",
    }
