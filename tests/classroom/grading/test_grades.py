"""The grade of each answer: what has a score, what is to be graded by hand, and what is read of a
file."""
from __future__ import annotations

import csv
import html
import io
import json
import os
from pathlib import Path

import pytest
from products import TOP, classroom

from classroom.sql import clean as texts
from classroom.base.files import NotRead

BY_HAND = "to be graded by hand:"


def rows(exercise: Path) -> dict[tuple[str, str], dict[str, str]]:
    """The rows of grades.csv by task and answer."""
    text = (exercise / "results/grades.csv").read_bytes().decode()
    found = list(csv.DictReader(io.StringIO(text, newline="")))
    return {(line["task"], line["answer"]): line for line in found}


def grade(
    exercise: Path, task: str, *, tries: bool = False, **answers: str | bytes
) -> dict[str, tuple[str, str, str]]:
    """Grade, points and fault of these answers to a task; by proofs alone or with SQLite."""
    for name, text in answers.items():
        (exercise / task / f"answers/{name}.sql").write_bytes(
            text if isinstance(text, bytes) else text.encode()
        )
    classroom("grade", *([] if tries else ["--only-proved"]), exercise)
    return {
        name: (line["grade"], line["points"], line["fault"])
        for (of, name), line in rows(exercise).items()
        if of == task and name in answers
    }


@pytest.fixture
def empty(beers: Path) -> Path:
    """The exercise of the examples without answers."""
    for path in beers.glob("*/answers/*.sql"):
        path.unlink()
    return beers


def test_one_task_never_stops_the_others(ratest: Path, beers: Path) -> None:
    """Rule 1: a reference that is refused, and one that is not there."""
    (beers / "2/reference.sql").write_text("SELECT bar, count(*) FROM serves GROUP BY bar")
    (beers / "4/reference.sql").unlink()
    ran = classroom("grade", "--only-proved", beers)
    assert ran.returncode == 1
    assert ran.stderr.splitlines() == [
        "classroom: task 2 is not graded: reference.sql: not supported: count",
        "classroom: task 4 is not graded: no file reference.sql",
        "classroom: 6 of 15 answers are to be graded by hand",
    ]
    assert ran.stdout.splitlines() == [
        "15 answers: 9 differ, 6 are not graded",
        f"see {beers}/results/grades.csv",
        BY_HAND,
        "  task 2: 3 answers: not graded: reference.sql: not supported: count (a, b, c)",
        "  task 4: 3 answers: not graded: no file reference.sql (a, b, c)",
    ]
    found = rows(beers)
    assert (
        found["2", "a"]["fault"] == "reference.sql: not supported: count"
        and found["2", "a"]["points"] == ""
    )
    assert found["1", "a"]["grade"] == "differs"
    assert len(json.loads((beers / "results/results.json").read_text())["tests"]) == 9
    page = classroom("page", beers)
    assert (page.returncode, page.stderr) == (0, "")


def test_mutants_go_on_without_a_task(ratest: Path, ratest_plus: Path, beers: Path) -> None:
    """Rule 1."""
    pytest.importorskip("sqlglot")
    (beers / "2/reference.sql").write_text("SELECT bar, count(*) FROM serves GROUP BY bar")
    ran = classroom("mutants", beers, "--only-proved")
    assert (ran.returncode, ran.stderr) == (
        1,
        "classroom: task 2 is not graded: reference.sql: not supported: count\n",
    )
    assert [line.split(":")[0] for line in ran.stdout.splitlines() if line.startswith("task")] == [
        "task 1",
        "task 3",
        "task 4",
        "task 5",
    ]


def test_pick_goes_on_without_a_task(
    ratest: Path, ratest_plus: Path, beers: Path, tmp_path: Path
) -> None:
    """Rule 1."""
    pytest.importorskip("sqlglot")
    (beers / "2/reference.sql").write_text("SELECT bar, count(*) FROM serves GROUP BY bar")
    for task in "345":
        (beers / task / "reference.sql").unlink()
    ran = classroom("pick", beers, tmp_path / "few")
    assert ran.returncode == 1
    assert ran.stderr.splitlines() == [
        f"classroom: task {task} is left out: no file reference.sql" for task in "345"
    ]
    lines = ran.stdout.splitlines()
    assert (
        lines[0].startswith("task 1: ")
        and "(tried)" not in lines[0]
        and (tmp_path / "few/serves.csv").is_file()
    )
    # `ratest` doesn't read the reference of task 2, which a database tries.
    assert any(line.startswith("task 2: ") and "(tried), by sqlite " in line for line in lines)
    assert (
        classroom("pick", beers, tmp_path / "proved", "--only-proved")
        .stderr.splitlines()[0]
        .startswith("classroom: task 2 is left out: reference.sql: not supported: count")
    )


def test_a_refused_answer_is_not_a_wrong_one(ratest: Path, empty: Path) -> None:
    """Rule 2: which grade has which score."""
    found = grade(
        empty,
        "1",
        right=(empty / "1/reference.sql").read_text(),
        wrong="SELECT drinker FROM likes",
        unknown="SELECT nmae FROM drinker",
        syntax="SELECT name FROM",
        quoted='SELECT bar FROM serves WHERE beer = "Dixie"',
        columns="SELECT name, city FROM drinker",
        order="SELECT drinker FROM likes ORDER BY drinker",
        types="SELECT price FROM serves",
        alias="SELECT bar FROM (SELECT bar FROM serves)",
        empty="",
    )
    assert found == {
        "right": ("agrees", "1", ""),
        "wrong": ("differs", "0", ""),
        "unknown": ("not read", "", "unknown column: nmae"),
        "syntax": ("not read", "", "syntax fault near byte 16"),
        "quoted": ("not read", "", "unknown column: Dixie"),
        "columns": ("differs", "0", "other columns"),
        "order": ("not read", "", "not supported: order"),
        "types": ("not read", "", "types do not match"),
        "alias": ("not read", "", "syntax fault near byte 40"),
        "empty": ("not read", "", "syntax fault near byte 0"),
    }
    tests = json.loads((empty / "results/results.json").read_text())["tests"]
    assert [test["name"] for test in tests] == ["1/columns", "1/right", "1/wrong"]
    assert [test["score"] for test in tests] == [0, 1, 0]


def test_what_spent_its_budget(ratest: Path, empty: Path) -> None:
    """Rule 2: with best rows it differs, perhaps on fewer; without any, or past a limit, there is
    no verdict."""
    for task in "345":
        wrong = (TOP / "examples/beers" / task / "answers/a.sql").read_text()
        (empty / task / "answers/a.sql").write_text(wrong)
    ran = classroom("grade", "--only-proved", empty, "--conflicts", "1")
    for line in rows(empty).values():
        if line["fault"] == "perhaps on fewer rows":
            assert (line["grade"], line["points"]) == ("differs", "0") and int(line["rows"]) > 0
        elif line["grade"] == "no verdict":
            assert line["points"] == "" and line["fault"] == "1 conflict was not enough"
        else:
            assert line["grade"] == "differs"
    assert any(line["fault"] for line in rows(empty).values())
    ran = classroom("grade", "--only-proved", empty, "--work", "1")
    assert ran.returncode == 1 and ran.stdout.splitlines()[0] == "3 answers: 3 have no verdict"
    assert {line["points"] for line in rows(empty).values()} == {""}


def test_the_list_by_hand(ratest: Path, empty: Path) -> None:
    """Rule 2: by task, the most frequent reason first, and status 1."""
    for name in "abcdefghij":
        (empty / f"2/answers/{name}.sql").write_text(f"SELECT name FROM drinker ORDER BY {name}")
    (empty / "2/answers/A.sql").write_text("SELECT price FROM serves")
    (empty / "1/answers/x.sql").write_text("SELECT count(*) FROM bar")
    ran = classroom("grade", "--only-proved", empty)
    assert (
        ran.returncode == 1
        and ran.stderr == "classroom: 12 of 12 answers are to be graded by hand\n"
    )
    assert ran.stdout.splitlines()[2:] == [
        BY_HAND,
        "  task 1: 1 answer: not read: not supported: count (x)",
        "  task 2: 10 answers: not read: not supported: order (a, b, c, d, e, f, g, h and 2 more)",
        "  task 2: 1 answer: not read: types do not match (A)",
    ]


def test_names_that_sqlite_takes_for_texts(ratest: Path, empty: Path) -> None:
    """Rule 2: quoted names are looked up; an alias in quotes is one."""
    found = grade(
        empty,
        "1",
        tries=True,
        nosuch='SELECT "nosuch" FROM bar',
        alias='SELECT "x" FROM (SELECT name AS "x" FROM bar) b WHERE "x" LIKE \'a\'',
        table='SELECT name FROM "nosuch"',
        cast="SELECT name::int FROM bar",
        rewritten="SELECT name::text FROM bar",
    )
    assert found["nosuch"] == ("wrong SQL", "0", "no such column: nosuch (line 1, column 8)")
    assert found["alias"][:2] == ("differs", "0")
    assert found["table"] == ("wrong SQL", "0", "no such table: nosuch (line 1, column 18)")
    assert found["cast"][:2] == ("not read", "")
    assert found["rewritten"][:2] == ("differs", "0")


def test_hostile_text_that_compiles_for_ever(ratest: Path, empty: Path) -> None:
    """Rule 2: SQLite's compiler is held to limits, too."""
    parts = ["a0 AS (SELECT name FROM bar)"]
    parts += [
        f"a{at} AS (SELECT * FROM a{at - 1} UNION ALL SELECT * FROM a{at - 1})"
        for at in range(1, 40)
    ]
    found = grade(
        empty, "1", bomb=f"SELECT nosuch FROM (WITH {', '.join(parts)} SELECT * FROM a39) q"
    )
    assert found["bomb"][0] in ("not read", "wrong SQL")


# Links, devices and pipes.


def test_links_are_not_followed(ratest: Path, empty: Path, tmp_path: Path) -> None:
    """Rule 3: nothing outside of the answers is opened, printed or graded."""
    answers = empty / "1/answers"
    (tmp_path / "secret").write_text("the key of the teacher's machine")
    (answers / "reference.sql").symlink_to("../reference.sql")
    (answers / "secret.sql").symlink_to(tmp_path / "secret")
    (answers / "nothing.sql").symlink_to("nosuch")
    (answers / "folder.sql").mkdir()
    os.mkfifo(answers / "pipe.sql")
    (tmp_path / "away").mkdir()
    (tmp_path / "away/far.sql").write_text("SELECT name FROM bar")
    (empty / "2/answers").rmdir()
    (empty / "2/answers").symlink_to(tmp_path / "away")
    (empty / "6").symlink_to(empty / "3")
    ran = classroom("grade", "--only-proved", empty)
    assert ran.returncode == 1
    assert ran.stderr.splitlines() == [
        "classroom: task 2 is not graded: answers: a link, which is not followed",
        f"classroom: task 6 is not graded: {empty}/6: a link, which is not followed",
        "classroom: 5 of 5 answers are to be graded by hand",
    ]
    assert {(name, line["grade"], line["fault"]) for (_, name), line in rows(empty).items()} == {
        (name, "not read", "no plain file")
        for name in ("reference", "secret", "nothing", "folder", "pipe")
    }
    for path in (empty / "results").rglob("*"):
        assert path.is_dir() or b"key of the teacher" not in path.read_bytes()


# Texts.

QUERY = "SELECT name FROM bar WHERE name = 'Müller'"


@pytest.mark.parametrize(
    "raw, whole, remarks",
    [
        (QUERY.encode(), QUERY, ()),
        (QUERY.encode("utf-8-sig"), f"\ufeff{QUERY}", ()),
        (QUERY.encode("utf-16"), QUERY, ("read as UTF-16",)),
        (b"\xfe\xff" + QUERY.encode("utf-16-be"), QUERY, ("read as UTF-16",)),
        (QUERY.encode("latin-1"), QUERY, ("read as Latin-1",)),
        (
            "SELECT ’ü’".encode("cp1252"),
            "SELECT ’ü’",
            (
                "read as Windows-1252",
                "a typographic quote at line 1, column 8",
                "a typographic quote at line 1, column 10",
            ),
        ),
    ],
)
def test_encodings(raw: bytes, whole: str, remarks: tuple[str, ...]) -> None:
    """Rule 7."""
    found = texts.text_of(raw)
    assert (found.whole.decode(), found.query.decode(), found.remarks) == (whole, whole, remarks)


@pytest.mark.parametrize(
    "text, query",
    [
        ("SELECT a FROM t;", "SELECT a FROM t;"),
        ("SELECT a FROM t; -- done", "SELECT a FROM t; -- done"),
        ("SELECT a FROM t;;", "SELECT a FROM t"),
        (";/* ; */ ;SELECT a FROM t; ; -- x", " /* ; */  SELECT a FROM t"),
        ("SELECT ';', \";\", `;` FROM t -- ;", "SELECT ';', \";\", `;` FROM t -- ;"),
        ("SELECT 'a; SELECT b", "SELECT 'a; SELECT b"),
        ("", ""),
        ("-- nothing; SELECT a", "-- nothing; SELECT a"),
        (";;", ";;"),
    ],
)
def test_one_statement(text: str, query: str) -> None:
    """Rule 7: the one statement counts, at the places that it has in the text."""
    assert texts.text_of(text.encode()).query.decode() == query


@pytest.mark.parametrize(
    "raw, told",
    [
        (b"SELECT a FROM t; SELECT b FROM t", "more than one statement"),
        (b"SELECT a FROM t; SELECT b FROM t;", "more than one statement"),
        (b"x" * 65_537, "more than 64 KiB"),
        (b"\xff\xfe\x00", "no text: it begins as UTF-16 and is none"),
        ("SELECT a".encode("utf-16-le"), "no text: it has zero bytes, as UTF-16 without its mark"),
    ],
)
def test_what_is_no_text_of_one_statement(raw: bytes, told: str) -> None:
    """Rule 7."""
    with pytest.raises(NotRead, match=told):
        texts.text_of(raw)


def test_texts_of_a_class(ratest: Path, empty: Path) -> None:
    """Rule 7: what was read otherwise, and characters of a word processor by name and place."""
    reference = (empty / "1/reference.sql").read_text()
    found = grade(
        empty,
        "1",
        wide=reference.encode("utf-16"),
        marked=reference.encode("utf-8-sig"),
        latin="SELECT bar FROM serves WHERE beer = 'Müller'".encode("latin-1"),
        typographic="SELECT bar FROM serves\nWHERE beer = ‘Dixie’",
        blank="SELECT\u00a0bar FROM serves",
        tab="SELECT\tbar\r\nFROM serves",
        two="SELECT bar FROM serves; SELECT beer FROM serves",
        large="x" * 4_194_304,
    )
    assert found == {
        "wide": ("agrees", "1", "read as UTF-16"),
        "marked": ("agrees", "1", ""),
        "latin": ("differs", "0", "read as Latin-1"),
        "typographic": (
            "not read",
            "",
            "unexpected byte at 36; a typographic quote at line 2, column 14; a typographic quote at"
            " line 2, column 20",
        ),
        "blank": ("not read", "", "unexpected byte at 6; a no-break space at line 1, column 7"),
        "tab": ("differs", "0", ""),
        "two": ("not read", "", "more than one statement"),
        "large": ("not read", "", "more than 64 KiB"),
    }
    assert all(path.stat().st_size < 200_000 for path in (empty / "results").rglob("*"))


def test_cells_that_a_spreadsheet_runs(ratest: Path, empty: Path) -> None:
    """Rule 8."""
    names = ["=1+1", "+1", "-1", "@x", "\tx", "\nx", "\rx", "plain"]
    for name in names:
        (empty / f"1/answers/{name}.sql").write_text('SELECT "=2+2" FROM bar')
    classroom("grade", "--only-proved", empty)
    found = rows(empty)
    assert {name for _, name in found} == {
        "'=1+1",
        "'+1",
        "'-1",
        "'@x",
        "'\tx",
        "'\nx",
        "'\rx",
        "plain",
    }
    assert {line["fault"] for line in found.values()} == {"unknown column: =2+2"}


# What students may see.


def test_no_solution_is_published(ratest: Path, empty: Path) -> None:
    """Rule 4: texts of agreeing answers, and others that may be as good, are in no page for
    students."""
    right = {task: (empty / task / "reference.sql").read_text() for task in "12345"}
    for task, text in right.items():
        agreeing = f"{text.rstrip()} -- by Ann\n"
        (empty / task / "answers/ann.sql").write_text(agreeing)
        (empty / task / "answers/zoe.sql").write_text(f"{text.rstrip()}\nORDER BY 1\n")
        (empty / task / "answers/kim.sql").write_text(text.replace("SELECT", "SELECT nosuch,", 1))
        for name in "abc":
            (empty / task / f"answers/{name}.sql").write_text(
                (TOP / f"examples/beers/{task}/answers/{name}.sql").read_text()
            )
    classroom("grade", empty)
    choices: list[list[str]] = [[], ["--names"]]
    for words in choices:
        ran = classroom("page", empty, *words)
        assert (ran.returncode, ran.stderr) == (0, "")
        page = html.unescape((empty / "results/students.html").read_text())
        differing = [path.read_text() for path in empty.glob("*/answers/[abc].sql")]
        assert "by Ann" not in page and "ORDER BY 1" not in page and "nosuch," not in page
        for line in {line for text in right.values() for line in text.splitlines() if line.strip()}:
            assert line not in page or any(line in text for text in differing), line
        assert all(text.rstrip("\n") in page for text in differing)
        assert ("ann" in page, "zoe" in page) == (bool(words), bool(words))
        assert '<td class="number">1</td>' in page and "agrees</span>" in page
    assert "by Ann" in (empty / "results/teacher.html").read_text()


def test_what_a_reference_is_refused_for_is_not_told_to_students(ratest: Path, empty: Path) -> None:
    """Rule 4."""
    (empty / "2/reference.sql").write_text("SELECT secret_of_the_teacher FROM bar")
    (empty / "2/answers/a.sql").write_text("SELECT name FROM bar")
    classroom("grade", empty)
    assert "secret_of_the_teacher" in (empty / "results/teacher.html").read_text()
    assert "secret_of_the_teacher" not in (empty / "results/students.html").read_text()


# One picture, and what else stands in the folder of the results.


@pytest.mark.parametrize("name", ["1/answers/a.sql", "1/reference.sql", "bar.csv", "schema.sql"])
def test_an_edit_meanwhile_is_no_part_of_the_grades(
    ratest: Path, beers: Path, tmp_path: Path, name: str
) -> None:
    """Rule 5: what is edited while the grading runs is told as changed, and graded anew."""
    program = tmp_path / "ratest"
    program.write_text(f'#!/bin/sh\necho >> "{beers / name}"\nexec "{ratest}" "$@"\n')
    program.chmod(0o755)
    ran = classroom("grade", beers, env={**os.environ, "RATEST": str(program)})
    assert ran.returncode == 0, ran.stderr
    ran = classroom("page", beers)
    assert ran.returncode == 1 and "has changed since it was graded" in ran.stderr
    assert classroom("grade", beers).returncode == classroom("page", beers).returncode == 0


def test_what_else_stands_in_the_results_stays(ratest: Path, beers: Path) -> None:
    """Rule 6: a stray file stops nothing, and notes are not removed."""
    results = beers / "results"
    (results / "tasks/3").mkdir(parents=True)
    notes = [
        results / name
        for name in (
            "notes.txt",
            "tasks/stray",
            "tasks/3/notes.txt",
            "tasks/3/b.txt.orig",
            "runs/notes.json",
        )
    ]
    (results / "runs").mkdir()
    for path in notes:
        path.write_text("by the teacher")
    assert classroom("grade", beers).returncode == 0
    assert all(path.read_text() == "by the teacher" for path in notes)
    before = len(list((results / "runs").iterdir()))
    (beers / "3/answers/b.sql").unlink()
    for path in (beers / "5").rglob("*.sql"):
        path.unlink()
    (beers / "5/answers").rmdir()
    assert classroom("grade", beers).returncode == 0
    assert all(path.read_text() == "by the teacher" for path in notes)
    assert not (results / "tasks/3/b.txt").exists() and not (results / "tasks/5").exists()
    assert len(list((results / "runs").iterdir())) == before - 4
    # A file in place of a folder: the grades are written all the same.
    (beers / "stray").mkdir()
    (beers / "stray/reference.sql").write_text("SELECT name FROM bar")
    (beers / "stray/answers").mkdir()
    (beers / "stray/answers/a.sql").write_text("SELECT name FROM bar")
    ran = classroom("grade", beers)
    assert (
        ran.stderr
        == f"classroom: {results}/tasks/stray: no folder, so the texts of its answers are not"
        " written\n"
    )
    assert rows(beers)["stray", "a"]["grade"] == "agrees"


# Where rows are too many.


def test_pick_is_named_where_answers_pass_a_limit(ratest: Path, beers: Path) -> None:
    """Rule 9."""
    ran = classroom("grade", "--only-proved", beers, "--work", "700")
    over = sum(line["fault"].startswith("passes a limit") for line in rows(beers).values())
    assert (
        over
        and ran.stderr.splitlines()[0]
        == f"classroom: {over} answers past a limit: `classroom pick` keeps the few rows that tell"
        " the mistakes"
    )
    assert "pick" not in classroom("grade", beers).stderr


def test_no_mutant_is_tried_of_a_reference_that_passes_a_limit(
    ratest: Path, ratest_plus: Path, beers: Path
) -> None:
    """Rule 9: one line in place of one a mutant."""
    pytest.importorskip("sqlglot")
    ran = classroom("mutants", beers, "--work", "500", "--only-proved")
    lines = ran.stderr.splitlines()
    assert ran.returncode == 1 and lines
    over = [
        line.split()[2].rstrip(":")
        for line in lines
        if "the reference alone passes a limit, so no mutant is tried: work" in line
    ]
    tried = [
        line.split()[1].rstrip(":") for line in ran.stdout.splitlines() if line.startswith("task ")
    ]
    assert over == ["1", "4"] and tried == ["2", "3", "5"]
    with open(beers / "mutants/mutants.csv", newline="", encoding="utf-8") as file:
        assert {line["task"] for line in csv.DictReader(file)} == set(tried)
