"""`exercise.toml`: all of its keys, and what is wrong with one."""
from __future__ import annotations

from datetime import datetime, timedelta, timezone
from pathlib import Path

import pytest
from products import classroom

from classroom.exercise import settings
from classroom.base.errors import Fault
from classroom.exercise.settings import TaskSettings

# The example of the guide.
WHOLE = """
title = "Beers"
time = 60
work = 16000000
conflicts = 2000
engine = "sqlite"
engine_asker = ""
tried = "right"
duplicates = "report"
order = "report"
students = "class/students.csv"
hints = 2
hints_from = 2026-11-20T08:00:00+01:00
opens = 2026-11-16T08:00:00+01:00
closes = 2026-11-30T23:59:00+01:00
after_close = "reference"

[task.3]
title = "Bars of one beer"
points = 2
question = "question.txt"
"""


def read(folder: Path, text: str) -> settings.Settings:
    (folder / "exercise.toml").write_text(text)
    return settings.read(folder, ["1", "2", "3"])


def test_every_key(tmp_path: Path) -> None:
    """Rule 10: every key is read."""
    zone = timezone(timedelta(hours=1))
    found = read(tmp_path, WHOLE)
    assert (found.title, found.time, found.work, found.conflicts) == ("Beers", 60, 16_000_000, 2000)
    assert (found.engine, found.engine_asker, found.tried, found.duplicates, found.order) == (
        "sqlite",
        "",
        "right",
        "report",
        "report",
    )
    assert (found.students, found.hints, found.after_close) == (
        "class/students.csv",
        2,
        "reference",
    )
    assert found.hints_from == datetime(2026, 11, 20, 8, tzinfo=zone)
    assert (found.opens, found.closes) == (
        datetime(2026, 11, 16, 8, tzinfo=zone),
        datetime(2026, 11, 30, 23, 59, tzinfo=zone),
    )
    assert found.of_task("3") == TaskSettings("Bars of one beer", 2, "question.txt")
    assert found.of_task("1") == TaskSettings("", 1, "question.txt")


def test_without_the_file(tmp_path: Path) -> None:
    assert settings.read(tmp_path, []) == settings.Settings()


@pytest.mark.parametrize(
    "text, told",
    [
        ("titel = 'x'", "titel: there is no such key"),
        ("title = 3", "title: a text is wanted"),
        ("time = '60'", "time: a number of seconds from 0.001 to 1e+06 is wanted"),
        ("time = true", "time: a number of seconds from 0.001 to 1e+06 is wanted"),
        ("time = nan", "time: a number of seconds from 0.001 to 1e+06 is wanted"),
        ("work = 1.5", "work: a whole number from 1 to 32000000 is wanted"),
        ("work = 99999999999", "work: a whole number from 1 to 32000000 is wanted"),
        ("conflicts = 0", "conflicts: a whole number from 1 to 10000000 is wanted"),
        ("hints = 4", "hints: a whole number from 0 to 3 is wanted"),
        ("tried = 'wrong'", 'tried: "right" or "by hand" is wanted'),
        ("order = 'no'", 'order: "ignore" or "report" or "wrong" is wanted'),
        ("duplicates = 1", 'duplicates: "ignore" or "report" or "wrong" is wanted'),
        ("after_close = ''", 'after_close: "reference" or "nothing" is wanted'),
        (
            "opens = 2026-11-16T08:00:00",
            "opens: a moment with its zone is wanted, as 2026-11-20T08:00:00+01:00",
        ),
        (
            "closes = 2026-11-16",
            "closes: a moment with its zone is wanted, as 2026-11-20T08:00:00+01:00",
        ),
        (
            "opens = 2026-11-16T08:00:00Z\ncloses = 2026-11-16T08:00:00+01:00",
            "closes: it closes before it opens",
        ),
        ("students = '../class.csv'", "students: a path below the folder is wanted"),
        ("students = '/etc/passwd'", "students: a path below the folder is wanted"),
        ("task = 3", "task: a table is wanted"),
        ("[task]\n3 = 'x'", "task.3: a table is wanted"),
        ("[task.9]\npoints = 2", "task.9: there is no task 9"),
        ("[task.3]\npoint = 2", "task.3.point: there is no such key"),
        ("[task.3]\npoints = '2'", "task.3.points: a number from 0 to 1e+06 is wanted"),
        ("[task.3]\npoints = -1", "task.3.points: a number from 0 to 1e+06 is wanted"),
        ("[task.3]\nquestion = '../../x'", "task.3.question: a path below the folder is wanted"),
        ("title = ", "Invalid value (at end of document)"),
    ],
)
def test_what_is_wrong(tmp_path: Path, text: str, told: str) -> None:
    """Rule 10: one line with the name of the key."""
    with pytest.raises(Fault) as fault:
        read(tmp_path, text)
    assert str(fault.value) == f"{tmp_path}/exercise.toml: {told}"


def test_a_key_stops_a_grading(ratest: Path, beers: Path) -> None:
    """Rule 10."""
    (beers / "exercise.toml").write_text("[task.6]\npoints = 2\n")
    ran = classroom("grade", beers)
    assert (ran.returncode, ran.stderr) == (
        1,
        f"classroom: {beers}/exercise.toml: task.6: there is no task 6\n",
    )


def test_effects(ratest: Path, beers: Path) -> None:
    """Rule 10: points, the title and the limits count."""
    (beers / "exercise.toml").write_text(WHOLE)
    (beers / "3/answers/right.sql").write_text((beers / "3/reference.sql").read_text())
    ran = classroom("grade", beers)
    assert (ran.returncode, ran.stderr) == (0, "")
    assert "\n3,right,agrees,2,proved,," in (beers / "results/grades.csv").read_text()
    page = (beers / "results/teacher.html").read_text()
    assert "<h1>Beers</h1>" in page and "Task 3: Bars of one beer" in page
    (beers / "exercise.toml").write_text("work = 1\n")
    ran = classroom("grade", "--only-proved", beers)
    assert ran.stdout.startswith("16 answers: 16 have no verdict\n")
    assert classroom("grade", beers, "--work", "16000000").returncode == 0
