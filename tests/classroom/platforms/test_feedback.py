"""The whole way: archives of a platform to grades, and what goes back to each student."""
from __future__ import annotations

import csv
import html
import io
import json
import os
import random
import re
import shutil
import subprocess
import zipfile
from pathlib import Path

import pytest

import made_archives
import made_class
from made_archives import PEOPLE, Person
from products import TOP, classroom

TASKS = ("1", "2", "3", "4", "5")
FIRST = (
    "Anna",
    "Ben",
    "Çelik",
    "Dörte",
    "Émile",
    "Fatma",
    "Gül",
    "Håkon",
    "Iñaki",
    "Jörg",
    "Kübra",
    "Łukasz",
)
LAST = (
    "Ashby-Cole",
    "Brontë",
    "Castaño",
    "van Dijk",
    "O'Egan",
    "Farrow",
    "Göttsche",
    "Haugen",
    "Ibsen",
    "Júlíusson",
)
COUNT = 120
# With fewer processors, or busy ones, it takes longer; a way that needs minutes is broken.
SECONDS = 60 * 4 // min(4, len(os.sched_getaffinity(0))) * 3


def people() -> list[Person]:
    return [
        Person(
            f"s{number:03}",
            f"{FIRST[number % 12]} {LAST[number // 12]}",
            str(70_000 + number),
            str(900 + number),
        )
        for number in range(COUNT)
    ]


def beers(folder: Path) -> Path:
    shutil.copytree(
        TOP / "examples/beers",
        folder,
        ignore=shutil.ignore_patterns("results", "answers", "teacher.html"),
    )
    return folder


@pytest.fixture(scope="module")
def course(ratest: Path, tmp_path_factory: pytest.TempPathFactory) -> Path:
    """120 students and five tasks: collected, graded, and given back."""
    place = tmp_path_factory.mktemp("course")
    exercise = beers(place / "beers")
    chosen = random.Random(62)
    answers = {
        one.id: {
            task: (
                "-- by"
                f" {one.name}\n{made_class.spelled(made_class.text(task, chosen), number, chosen)}"
            )
            for task in TASKS
            if chosen.random() < 0.95
        }
        for number, one in enumerate(people())
    }
    archive = made_archives.moodle(place / "answers.zip", answers, people())
    (exercise / "class").mkdir()
    (exercise / "class/students.csv").write_text(
        made_archives.class_list(people()), encoding="utf-8"
    )
    calls: list[list[str | Path]] = [
        ["collect", archive, exercise],
        ["grade", exercise],
        [
            "feedback",
            exercise,
            "--zip",
            "moodle",
            "--for",
            "moodle",
            "--for",
            "canvas",
            "--assignment",
            "Beers",
        ],
        ["page", exercise],
    ]
    for words in calls:
        ran = classroom(*words, timeout=SECONDS)
        assert ran.returncode in (0, 1) and "Traceback" not in ran.stderr, ran.stderr
    return exercise


def texts_of(course: Path) -> dict[str, str]:
    """All that each student gets, as plain text."""
    folder = course / "results/feedback"
    return {
        one.id: html.unescape((folder / f"{one.id}.html").read_text(encoding="utf-8"))
        + re.sub(r"\\(.)", r"\1", (folder / f"{one.id}.md").read_text(encoding="utf-8"))
        for one in people()
    }


def own_texts(course: Path, who: str) -> str:
    return "\n".join(
        (course / task / "answers" / f"{who}.sql").read_text(encoding="utf-8")
        for task in TASKS
        if (course / task / "answers" / f"{who}.sql").exists()
    )


def test_nobody_gets_a_name_or_a_text_of_another(course: Path) -> None:
    found = texts_of(course)
    assert len(found) == COUNT
    for one in people():
        assert one.name in found[one.id]
        for other in people():
            if other != one:
                assert other.name not in found[one.id] and other.id not in found[one.id]
                assert f"by {other.name}" not in found[one.id]


def test_no_line_of_a_reference_goes_out(course: Path) -> None:
    """But where the own text has the same line."""
    lines = {
        line.strip()
        for task in TASKS
        for line in (course / task / "reference.sql").read_text().splitlines()
        if len(line.strip()) > 12
    }
    assert len(lines) >= 12
    for who, text in texts_of(course).items():
        own = own_texts(course, who)
        assert not [line for line in lines if line in text and line not in own], who


def test_each_has_the_own_texts_and_verdicts(course: Path) -> None:
    with open(course / "results/grades.csv", encoding="utf-8", newline="") as file:
        rows = list(csv.DictReader(file))
    found = texts_of(course)
    assert len(rows) > 500 and {row["grade"] for row in rows} >= {"agrees", "differs", "wrong SQL"}
    assert {row["decided_by"].split()[0] for row in rows if row["decided_by"]} == {
        "proved",
        "sqlite",
    }
    for row in rows:
        text = found[row["answer"]]
        assert row["grade"] in text
        if row["grade"] == "differs" and row["rows"]:
            tried = "" if row["decided_by"] == "proved" else " (tried)"
            assert f"differs{tried} on {row['rows']} row" in text and "INSERT INTO" in text
    for one in people():
        for line in own_texts(course, one.id).splitlines():
            assert line.rstrip() in found[one.id]
        missing = sum(not (course / task / "answers" / f"{one.id}.sql").exists() for task in TASKS)
        assert (course / f"results/feedback/{one.id}.html").read_text().count(
            "nothing was handed in"
        ) == missing


def test_points_add_up(course: Path) -> None:
    with open(course / "results/grades.csv", encoding="utf-8", newline="") as file:
        rows = list(csv.DictReader(file))
    with open(course / "results/class.csv", encoding="utf-8", newline="") as file:
        whole = list(csv.DictReader(file))
    assert [row["id"] for row in whole] == [one.id for one in people()] and list(whole[0]) == [
        "id",
        "name",
        *TASKS,
        "points",
        "open",
    ]
    for row in whole:
        own = {one["task"]: one["points"] for one in rows if one["answer"] == row["id"]}
        assert {task: row[task] for task in TASKS} == {
            task: own[task] or "by hand" if task in own else "" for task in TASKS
        }
        assert float(row["points"]) == sum(float(it) for it in own.values() if it) and int(
            row["open"]
        ) == list(own.values()).count("")
    with open(course / "results/feedback/moodle.csv", encoding="utf-8", newline="") as file:
        moodle = list(csv.DictReader(file))
    assert list(moodle[0]) == ["Identifier", "Full name", "Grade", "Feedback comments"]
    assert [(row["Identifier"], row["Full name"], row["Grade"]) for row in moodle] == [
        (f"Participant {one.moodle}", one.name, "" if int(row["open"]) else row["points"])
        for one, row in zip(people(), whole)
    ]
    with open(course / "results/feedback/canvas.csv", encoding="utf-8", newline="") as file:
        canvas = list(csv.DictReader(file))
    assert list(canvas[0]) == ["Student", "ID", "SIS Login ID", "Section", "Beers"]
    assert [(row["ID"], row["SIS Login ID"], row["Beers"]) for row in canvas] == [
        (one.canvas, one.id, row["Grade"]) for one, row in zip(people(), moodle)
    ]


def test_the_archive_for_moodle_has_the_folders_of_the_submissions(course: Path) -> None:
    with zipfile.ZipFile(course / "results/feedback/moodle.zip") as archive:
        assert archive.testzip() is None
        content = {name: archive.read(name) for name in archive.namelist()}
    folder = course / "results/feedback"
    assert content == {
        f"{one.name}_{one.moodle}_assignsubmission_file_/feedback.html": (
            folder / f"{one.id}.html"
        ).read_bytes()
        for one in people()
    }


def test_the_page_is_small(course: Path) -> None:
    assert (course / "results/teacher.html").stat().st_size < 2_000_000


@pytest.fixture
def small(ratest: Path, tmp_path: Path) -> Path:
    """Two tasks of two points, of which one is for people to grade, and a hostile text."""
    exercise = beers(tmp_path / "beers")
    for task in "345":
        shutil.rmtree(exercise / task)
    (exercise / "exercise.toml").write_text(
        'title = "Beers & bars"\ncloses = 2020-01-01T00:00:00+00:00\n[task.1]\npoints = 2.5\ntitle'
        ' = "A *first* one"\n'
    )
    for who, task, text in (
        ("anna", "1", (exercise / "1/reference.sql").read_text()),
        ("anna", "2", "SELECT count(*) FROM bar\n"),
        ("ben", "1", "```\n</script><h1>x</h1> | **b**\nSELECT\n"),
        ("ben", "2", "SELECT name FROM drinker\n"),
    ):
        (exercise / task / "answers").mkdir(exist_ok=True)
        (exercise / task / "answers" / f"{who}.sql").write_text(text)
    (exercise / "class").mkdir()
    (exercise / "class/students.csv").write_text(
        "id,name,moodle\nanna,Anna A.,7\nben,=cmd|'/c calc'!A1,\ncleo,Cleo\n"
    )
    # What a database could try is left to people here.
    assert classroom("grade", exercise, "--only-proved", timeout=SECONDS).returncode == 1
    return exercise


def test_texts_mean_nothing_in_a_page_or_in_markdown(small: Path) -> None:
    assert classroom("feedback", small).returncode == 0
    page = (small / "results/feedback/ben.html").read_text()
    assert "<h1>x" not in page and "&lt;h1&gt;x" in page
    text = (small / "results/feedback/ben.md").read_text()
    assert "````sql\n```\n</script>" in text and "\n````\n" in text
    assert (
        text.startswith("# Beers \\& bars: =cmd\\|'/c calc'\\!A1\n")
        and "## Task 1: A \\*first\\* one" in text
    )


def test_who_is_missing_on_a_platform_is_told(small: Path) -> None:
    ran = classroom(
        "feedback",
        small,
        "--for",
        "moodle",
        "--zip",
        "moodle",
        "--zip",
        "nbgrader",
        "--assignment",
        "hw1",
    )
    assert ran.returncode == 1
    assert (
        ran.stderr == "classroom: moodle.csv: without a number there, and left out: ben, cleo\n"
        "classroom: moodle.zip: without a number there, and left out: ben, cleo\n"
    )
    lines = list(
        csv.reader(io.StringIO((small / "results/feedback/moodle.csv").read_text(), newline=""))
    )
    assert len(lines) == 2 and lines[1][:3] == ["Participant 7", "Anna A.", ""]
    assert "1: A *first* one: agrees (2.5 of 2.5)" in lines[1][3] and "(by hand)" in lines[1][3]
    with zipfile.ZipFile(small / "results/feedback/nbgrader.zip") as archive:
        assert archive.namelist() == [
            f"feedback/{who}/hw1/feedback.html" for who in ("anna", "ben", "cleo")
        ]
    # A name that a spreadsheet would run.
    assert "'=cmd" in (small / "results/class.csv").read_text()


def test_references_only_after_the_deadline(small: Path) -> None:
    reference = (small / "2/reference.sql").read_text().splitlines()[1]
    assert classroom("feedback", small).returncode == 0
    assert reference not in html.unescape((small / "results/feedback/ben.html").read_text())
    assert classroom("feedback", small, "--reference").returncode == 0
    assert reference in html.unescape((small / "results/feedback/ben.html").read_text())
    settings = small / "exercise.toml"
    settings.write_text(settings.read_text().replace("2020", "2999"))
    ran = classroom("feedback", small, "--reference")
    assert ran.returncode == 1 and "closes at 2999-01-01" in ran.stderr


def test_what_else_stands_in_the_folder_stays(small: Path) -> None:
    assert classroom("feedback", small).returncode == 0
    folder = small / "results/feedback"
    (folder / "notes.txt").write_text("of the teacher")
    (small / "class/students.csv").write_text("id,name\nanna,Anna\n")
    (small / "1/answers/ben.sql").unlink()
    (small / "2/answers/ben.sql").unlink()
    classroom("grade", small, "--only-proved", timeout=SECONDS)
    assert classroom("feedback", small).returncode == 0
    assert sorted(path.name for path in folder.iterdir()) == [
        "anna.html",
        "anna.md",
        "notes.txt",
        "written.json",
    ]


def test_it_has_to_be_graded(small: Path) -> None:
    (small / "1/answers/ben.sql").write_text("SELECT name FROM drinker\n")
    ran = classroom("feedback", small)
    assert ran.returncode == 1 and "has changed since it was graded" in ran.stderr


@pytest.fixture
def autograder(small: Path, tmp_path: Path) -> Path:
    """The folder that Gradescope makes, over the exercise and a submission of two files."""
    top = tmp_path / "autograder"
    (top / "source").mkdir(parents=True)
    shutil.copytree(small, top / "source/exercise")
    for name in ("setup.sh", "run_autograder"):
        shutil.copy(TOP / "examples/gradescope" / name, top / "source")
    (top / "submission/inner").mkdir(parents=True)
    shutil.copy(small / "1/reference.sql", top / "submission/1.sql")
    (top / "submission/inner/2.sql").write_text("SELECT name FROM drinker\n")
    (top / "submission/3.sql").symlink_to("/etc/passwd")
    return top


def test_gradescope(autograder: Path, ratest: Path, tmp_path: Path) -> None:
    (tmp_path / "bin").mkdir()
    (tmp_path / "bin/classroom").symlink_to(TOP / "classroom")
    ran = subprocess.run(
        [autograder / "source/run_autograder"],
        text=True,
        capture_output=True,
        timeout=SECONDS,
        env={
            "PATH": f"{tmp_path}/bin:/usr/bin:/bin",
            "AUTOGRADER": str(autograder),
            "RATEST": str(ratest),
        },
    )
    assert ran.returncode == 0, ran.stderr
    text = (autograder / "results/results.json").read_text()
    made = json.loads(text)
    assert made["score"] == 2.5 and [test["name"] for test in made["tests"]] == [
        "Task 1: A *first* one",
        "Task 2",
    ]
    first, second = made["tests"]
    assert first.pop("output").startswith("## Task 1") and first == {
        "name": "Task 1: A *first* one",
        "number": "1",
        "output_format": "md",
        "visibility": "visible",
        "score": 2.5,
        "max_score": 2.5,
        "status": "passed",
        "decided_by": "proved",
    }
    assert (second["score"], second["max_score"], second["status"]) == (0, 1, "failed")
    assert (
        "| row | name |" in second["output"]
        and "anna" not in text
        and "passwd" not in text
        and "root:" not in text
    )


def test_gradescope_grades_one_at_a_time(small: Path) -> None:
    ran = classroom("feedback", small, "--for", "gradescope")
    assert ran.returncode == 1 and "one student at a time" in ran.stderr


def test_archives_are_made_by_a_script(tmp_path: Path) -> None:
    made_archives.main(tmp_path / "all")
    assert len(list((tmp_path / "all").iterdir())) == 7 and len(PEOPLE) == 4
