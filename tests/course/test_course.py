"""A course over two databases: sixty tasks and 240 answers, of which each has a verdict and none a
wrong one."""
from __future__ import annotations

import csv
import os
import sqlite3
import time
from pathlib import Path

import products
import pytest
import tasks_library
import tasks_library_words
import tasks_railway
import tasks_railway_words
from products import classroom
from roles import Roles

from classroom.verdict.verdict import ALL, JOINS, Differs, from_json
import json

HERE = Path(__file__).resolve().parent
GRADES = {
    tasks_library.RIGHT: {"agrees", "no difference found"},
    tasks_library.WRONG: {"differs"},
    tasks_library.ORDER: {"not determined"},
    tasks_library.ERROR: {"wrong SQL"},
    tasks_library.FOREIGN: {"not read"},
}
# Of the tried differences so many have to be shown to be the smallest.
LEAST = 0.95

Tasks = list[tuple[str, list[tuple[str, str]]]]


def fill(folder: Path, tasks: Tasks) -> dict[tuple[str, str], str]:
    """Writes the tasks; gives what each answer should get."""
    wanted = {}
    for number, (reference, answers) in enumerate(tasks, 1):
        (folder / str(number) / "answers").mkdir(parents=True)
        (folder / str(number) / "reference.sql").write_text(reference)
        for name, (text, grade) in zip("abcd", answers, strict=True):
            (folder / str(number) / "answers" / f"{name}.sql").write_text(text)
            wanted[str(number), name] = grade
    return wanted


def check(
    folder: Path, wanted: dict[tuple[str, str], str], capsys: pytest.CaptureFixture[str]
) -> None:
    begun = time.monotonic()
    ran = classroom("grade", folder)
    seconds = time.monotonic() - begun
    with open(folder / "results/grades.csv", newline="", encoding="utf-8") as file:
        found = {(line["task"], line["answer"]): line for line in csv.DictReader(file)}
    wrong = {
        name: (line["grade"], line["fault"], wanted[name])
        for name, line in found.items()
        if line["grade"] not in GRADES[wanted[name]]
    }
    assert not wrong and len(found) == len(wanted) == 120, (wrong, ran.stderr)
    tried = [
        from_json(json.loads(path.read_bytes())).outcome
        for path in (folder / "results/runs").glob("*.trial.json")
    ]
    differing = [one for one in tried if isinstance(one, Differs)]
    least = sum(one.least in (ALL, JOINS) for one in differing)
    with capsys.disabled():
        print(
            f"\n{len(found)} answers in {seconds:.1f} s,"
            f" {sum(line['decided_by'] == 'proved' for line in found.values())} proved; {least} of"
            f" {len(differing)} tried differences are the smallest"
        )
    assert differing and least >= LEAST * len(differing)


def test_library(ratest: Path, tmp_path: Path, capsys: pytest.CaptureFixture[str]) -> None:
    os.environ["RATEST"] = str(ratest.absolute())
    database = sqlite3.connect(tmp_path / "library.db")
    database.executescript((HERE / "library.sql").read_text())
    database.close()
    made = classroom("import", tmp_path / "library.db", tmp_path / "class")
    assert made.returncode == 0, made.stderr
    tasks = tasks_library.TASKS + tasks_library_words.TASKS
    check(tmp_path / "class", fill(tmp_path / "class", tasks), capsys)


def test_railway(
    ratest: Path, roles: Roles, tmp_path: Path, capsys: pytest.CaptureFixture[str]
) -> None:
    os.environ["RATEST"] = str(ratest.absolute())
    place = roles.owner.split(" dbname")[0]
    products.run(
        "psql",
        "-X",
        "-q",
        "-d",
        f"{place} dbname=postgres",
        "-c",
        "DROP DATABASE IF EXISTS railway",
        "-c",
        "CREATE DATABASE railway",
    )
    owner = roles.owner.replace("ratest_scratch", "railway")
    done = products.run(
        "psql", "-X", "-q", "-v", "ON_ERROR_STOP=1", "-d", owner, "-f", HERE / "railway.sql"
    )
    assert done.returncode == 0, done.stderr
    made = classroom("import", owner, tmp_path / "class")
    assert made.returncode == 0, made.stderr
    tasks = tasks_railway.TASKS + tasks_railway_words.TASKS
    check(tmp_path / "class", fill(tmp_path / "class", tasks), capsys)
