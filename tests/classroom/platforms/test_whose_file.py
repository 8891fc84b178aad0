"""Who handed a file in: the outermost part of its name decides, which the platform writes."""
from __future__ import annotations

import csv
import os
import time
import zipfile
from pathlib import Path

import made_archives
import pytest
from classroom.platforms.archive import members
from products import classroom

SCHEMA = "CREATE TABLE t (a INTEGER PRIMARY KEY);\n"


@pytest.fixture
def exercise(tmp_path: Path) -> Path:
    folder = tmp_path / "exercise"
    for task in ("1", "2"):
        (folder / task).mkdir(parents=True)
        (folder / task / "reference.sql").write_text("SELECT a FROM t\n")
    (folder / "schema.sql").write_text(SCHEMA)
    (folder / "t.csv").write_text("a\n1\n")
    return folder


def collected(exercise: Path, tmp_path: Path, files: list[tuple[str, str]]) -> set[str]:
    """The answers after an archive of these files was collected, as `1/anna`."""
    classroom("collect", made_archives.written(tmp_path / "x.zip", files), exercise)
    found = exercise.glob("*/answers/*.sql")
    return {f"{path.parent.parent.name}/{path.stem}" for path in found}


def test_a_file_of_moodle_can_not_name_another_student(exercise: Path, tmp_path: Path) -> None:
    name = "Eve_13_assignsubmission_file_Anna_4711_assignsubmission_file_1.sql"
    assert collected(exercise, tmp_path, [(name, "SELECT 1\n")]) == {"1/Eve"}


def test_the_last_sign_of_a_folder_of_moodle_may_be_missing(exercise: Path, tmp_path: Path) -> None:
    files = [
        ("Anna A_11_assignsubmission_file/1.sql", "SELECT 1\n"),
        ("Ben B_12_assignsubmission_file/1.sql", "SELECT 2\n"),
    ]
    assert collected(exercise, tmp_path, files) == {"1/Anna A", "1/Ben B"}


def test_an_inner_folder_is_no_student(exercise: Path, tmp_path: Path) -> None:
    files = [("eve/anna/1.sql", "SELECT 1\n"), ("ben/1.sql", "SELECT 2\n")]
    assert collected(exercise, tmp_path, files) == {"1/eve", "1/ben"}


def test_a_folder_that_all_call_alike_is_no_student(exercise: Path, tmp_path: Path) -> None:
    files = [("anna/hw/1.sql", "SELECT 1\n"), ("ben/hw/1.sql", "SELECT 2\n")]
    assert collected(exercise, tmp_path, files) == {"1/anna", "1/ben"}


def test_one_folder_around_all_students(exercise: Path, tmp_path: Path) -> None:
    files = [("export/anna/1.sql", "SELECT 1\n"), ("export/ben/1.sql", "SELECT 2\n")]
    assert collected(exercise, tmp_path, files) == {"1/anna", "1/ben"}


def test_an_inner_submitted_is_the_students(exercise: Path, tmp_path: Path) -> None:
    files = [("eve/hw/submitted/anna/ps1/1.sql", "SELECT 1\n"), ("ben/1.sql", "SELECT 2\n")]
    assert collected(exercise, tmp_path, files) == {"1/eve", "1/ben"}


def test_one_name_does_not_decide_the_form(exercise: Path, tmp_path: Path) -> None:
    files = [(f"s{number}/1.sql", "SELECT 1\n") for number in range(12)]
    files.append(("s3/my_1_2_notes.txt", "notes"))
    answers = {f"1/s{number}" for number in range(12)}
    assert collected(exercise, tmp_path, files) == answers


def test_two_forms_are_refused_with_their_counts(exercise: Path, tmp_path: Path) -> None:
    files = [(f"s{number}/1.sql", "SELECT 1\n") for number in range(2)]
    files.append(("A B_11_assignsubmission_file_/1.sql", "SELECT 1\n"))
    archive = made_archives.written(tmp_path / "x.zip", files)
    ran = classroom("collect", archive, exercise)
    assert ran.returncode == 1
    assert "folders: 2 files, moodle: 1 file" in ran.stderr and "--form" in ran.stderr


def test_capitals_and_marks_are_one_student(exercise: Path, tmp_path: Path) -> None:
    (exercise / "class").mkdir()
    (exercise / "class/students.csv").write_text("id,name\nanna,Anna A\nk\u00f6nig,Kai K\n")
    files = [("Anna/1.sql", "SELECT a FROM t\n"), ("ko\u0308nig/1.sql", "SELECT a FROM t\n")]
    assert collected(exercise, tmp_path, files) == {"1/anna", "1/k\u00f6nig"}


@pytest.mark.parametrize(
    "name",
    ["\u0639\u0644\u06cc\u200c\u0631\u0636\u0627", "山田 太郎", "Anne\u00a0Marie", "O'Neill-Brown"],
)
def test_names_of_people(exercise: Path, tmp_path: Path, name: str) -> None:
    shown = " ".join(name.split())
    assert collected(exercise, tmp_path, [(f"{name}/1.sql", "SELECT 1\n")]) == {f"1/{shown}"}


@pytest.mark.parametrize("sign", ["\u202e", "\u2066", "\x07", "\u2028"])
def test_signs_that_no_name_has(exercise: Path, tmp_path: Path, sign: str) -> None:
    assert collected(exercise, tmp_path, [(f"an{sign}na/1.sql", "SELECT 1\n")]) == set()


def test_what_is_not_placed_is_open(ratest: Path, exercise: Path, tmp_path: Path) -> None:
    """It is neither 0 points nor nothing handed in, in any table and on any page."""
    files = [
        ("Anna A_11_assignsubmission_file_/homework.sql", "SELECT a FROM t\n"),
        ("Ben B_12_assignsubmission_file_/1.sql", "SELECT a FROM t\n"),
    ]
    assert collected(exercise, tmp_path, files) == {"1/Ben B"}
    assert classroom("grade", exercise).returncode in (0, 1)
    with open(exercise / "results/class.csv", encoding="utf-8", newline="") as file:
        rows = {row["id"]: row for row in csv.DictReader(file)}
    assert (rows["Anna A"]["1"], rows["Anna A"]["2"], rows["Anna A"]["open"]) == (
        "by hand",
        "by hand",
        "2",
    )
    assert (rows["Ben B"]["1"], rows["Ben B"]["2"], rows["Ben B"]["open"]) == ("1", "", "0")
    classroom("feedback", exercise, "--for", "moodle")
    page = (exercise / "results/feedback/Anna A.html").read_text()
    assert "nothing was handed in" not in page and "homework.sql" in page
    assert "nothing was handed in" in (exercise / "results/feedback/Ben B.html").read_text()
    with open(exercise / "results/feedback/moodle.csv", encoding="utf-8", newline="") as file:
        grades = {row["Full name"]: row["Grade"] for row in csv.DictReader(file)}
    assert grades == {"Anna A": "", "Ben B": "1"}


def test_what_was_open_is_closed_by_the_next_archive(exercise: Path, tmp_path: Path) -> None:
    collected(exercise, tmp_path, [("anna/homework.sql", "SELECT 1\n")])
    assert "homework.sql" in (exercise / "class/collected.csv").read_text()
    assert collected(exercise, tmp_path, [("anna/1.sql", "SELECT 1\n")]) == {"1/anna"}
    assert "unplaced" not in (exercise / "class/collected.csv").read_text()


def test_the_only_task_takes_any_name(exercise: Path, tmp_path: Path) -> None:
    (exercise / "2/reference.sql").unlink()
    (exercise / "2").rmdir()
    assert collected(exercise, tmp_path, [("anna/homework.sql", "SELECT 1\n")]) == {"1/anna"}


def test_sql_goes_before_notes(exercise: Path, tmp_path: Path) -> None:
    files = [("anna/1.txt", "I tried a join first\n"), ("anna/1.sql", "SELECT 1\n")]
    assert collected(exercise, tmp_path, files) == {"1/anna"}
    assert (exercise / "1/answers/anna.sql").read_text() == "SELECT 1\n"


def test_an_empty_file_takes_nothing_away(exercise: Path, tmp_path: Path) -> None:
    files = [("anna/1.sql", "-- later\n"), ("anna/1.txt", "SELECT 1\n")]
    assert collected(exercise, tmp_path, files) == {"1/anna"}


def test_a_word_file_is_named(exercise: Path, tmp_path: Path) -> None:
    archive = made_archives.written(tmp_path / "x.zip", [("anna/1.sql", "PK\x03\x04 of Word")])
    ran = classroom("collect", archive, exercise)
    assert ran.returncode == 1 and "a Word, a zip or another packed file" in ran.stderr


def test_a_banner_takes_no_time(exercise: Path, tmp_path: Path) -> None:
    text = f"-- task 1\n{'-' * 100_000}\nSELECT 1\n-- task 2\nSELECT 2\n"
    begun = time.monotonic()
    assert collected(exercise, tmp_path, [("anna/all.sql", text)]) == {"1/anna", "2/anna"}
    assert time.monotonic() - begun < 60


@pytest.mark.parametrize("method", [zipfile.ZIP_BZIP2, zipfile.ZIP_LZMA])
def test_other_packings_are_refused(exercise: Path, tmp_path: Path, method: int) -> None:
    path = tmp_path / "x.zip"
    with zipfile.ZipFile(path, "w", method) as archive:
        archive.writestr("anna/1.sql", "SELECT 1\n")
        archive.writestr("ben/1.sql", "SELECT 1\n", zipfile.ZIP_DEFLATED)
    ran = classroom("collect", path, exercise)
    assert ran.returncode == 1 and "neither as stored nor as deflated" in ran.stderr
    assert [file.name for file in exercise.glob("1/answers/*")] == ["ben.sql"]


def test_a_file_that_can_not_be_read_is_named(
    tmp_path: Path, monkeypatch: pytest.MonkeyPatch
) -> None:
    for name in ("anna", "ben"):
        (tmp_path / name).mkdir()
        (tmp_path / name / "1.sql").write_text(f"SELECT '{name}'\n")
    opened = os.open
    asked = []

    def refuse(path: str, flags: int, **more: int) -> int:
        if path == "1.sql":
            asked.append(path)
            if len(asked) == 1:
                raise PermissionError(13, "Permission denied")
        return opened(path, flags, **more)

    monkeypatch.setattr(os, "open", refuse)
    found = [(one.label, one.content, one.fault) for one in members(tmp_path)]
    assert found == [
        ("anna/1.sql", b"", "Permission denied"),
        ("ben/1.sql", b"SELECT 'ben'\n", ""),
    ]
