"""What SQLite has no word for is no fault of a student; what nobody reads is."""
from __future__ import annotations

import csv
import subprocess
from pathlib import Path

import pytest
from products import TOP, classroom

RIGHT = "SELECT name FROM bar WHERE name LIKE 'T%'"
OTHERS = {
    "ilike": "SELECT name FROM bar WHERE name ILIKE 'T%'",
    "similar": "SELECT name FROM bar WHERE name SIMILAR TO 'T%'",
    "regular": "SELECT name FROM bar WHERE name ~ '^T'",
    "symmetric": "SELECT name FROM bar WHERE name BETWEEN SYMMETRIC 'T' AND 'U'",
    "top": "SELECT TOP 3 name FROM bar",
    "left_function": "SELECT name FROM bar WHERE left(name, 1) = 'T'",
}
WRONG = {
    "column": "SELECT nmae FROM bar",
    "table": "SELECT name FROM bra",
    "function": "SELECT conut(name) FROM bar",
    "word": "SELECT name FORM bar",
    "cut": "SELECT name FROM bar WHERE",
    "group": "SELECT name FROM bar GROUP",
    "comma": "SELECT name, FROM bar",
    "quote": "SELECT name FROM bar WHERE name = 'T",
}


@pytest.fixture
def exercise(ratest: Path, beers: Path) -> Path:
    for path in beers.glob("*/answers/*.sql"):
        path.unlink()
    (beers / "1/reference.sql").write_text(RIGHT)
    for name, text in (OTHERS | WRONG).items():
        (beers / f"1/answers/{name}.sql").write_text(text)
    return beers


def grades(exercise: Path) -> dict[str, tuple[str, str]]:
    with open(exercise / "results/grades.csv", encoding="utf-8", newline="") as file:
        return {line["answer"]: (line["grade"], line["points"]) for line in csv.DictReader(file)}


def test_only_what_no_dialect_reads_is_wrong_sql(exercise: Path) -> None:
    ran = classroom("grade", exercise)
    found = grades(exercise)
    assert {name: found[name] for name in WRONG} == dict.fromkeys(WRONG, ("wrong SQL", "0"))
    # An engine that rewrites some of them answers those; no one of them is wrong.
    assert not [name for name in OTHERS if found[name][0] == "wrong SQL"]
    assert found["regular"] == ("not read", "")
    assert "PostgreSQL" in ran.stdout


@pytest.mark.parametrize(
    "words", [["--only-proved"], ["--engine", "postgresql://nobody@127.0.0.1:1/x"]]
)
def test_nothing_is_wrong_sql_where_the_engine_was_not_asked(
    exercise: Path, words: list[str]
) -> None:
    (exercise / "1/reference.sql").write_text("SELECT name FROM bar")
    (exercise / "exercise.toml").write_text('engine_asker = "postgresql://no@127.0.0.1:1/x"\n')
    classroom("grade", *words, exercise)
    assert {grade for grade, _ in grades(exercise).values()} == {"not read"}


def test_a_program_that_dies_grades_nothing(beers: Path, tmp_path: Path) -> None:
    """Already at a reference: then no database takes its place."""
    program = tmp_path / "ratest"
    program.write_text("#!/bin/sh\nkill -SEGV $$\n")
    program.chmod(0o755)
    ran = subprocess.run(
        [TOP / "classroom", "grade", beers],
        env={"PATH": "/usr/bin:/bin", "RATEST": str(program)},
        capture_output=True,
        text=True,
        check=False,
    )
    assert (ran.returncode, ran.stdout) == (1, "")
    assert ran.stderr == (
        "classroom: nothing is graded: ratest was ended by signal 11, at the reference of task 1\n"
    )
    assert not (beers / "results/grades.csv").exists()


def test_a_program_that_dies_at_some_answers(ratest: Path, exercise: Path, tmp_path: Path) -> None:
    """The others have their verdicts; these have none, and no database takes its place."""
    (exercise / "1/reference.sql").write_text("SELECT name FROM bar")
    (exercise / "1/answers/right.sql").write_text("SELECT name FROM bar")
    (exercise / "1/answers/dies.sql").write_text("SELECT name FROM bar -- DIES")
    program = tmp_path / "ratest"
    program.write_text(f'#!/bin/sh\ngrep -q DIES "$4" && kill -SEGV $$\nexec "{ratest}" "$@"\n')
    program.chmod(0o755)
    ran = subprocess.run(
        [TOP / "classroom", "grade", exercise],
        env={"PATH": "/usr/bin:/bin", "RATEST": str(program)},
        capture_output=True,
        text=True,
        check=False,
    )
    found = grades(exercise)
    assert (found["right"], found["dies"]) == (("agrees", "1"), ("no verdict", ""))
    assert ran.returncode == 1
    assert "1 answer without a verdict, since ratest ended without one" in ran.stderr
