"""The picked rows: rows of the source that meet its schema and tell what the source tells."""
from __future__ import annotations

import csv
import io
import os
import re
import shutil
import signal
import sqlite3
import subprocess
import time
from pathlib import Path

import made_rows
import pytest
from products import TOP, Postgres, Sqlite, classroom, run

from classroom.sql.schema import tables_of

pytest.importorskip("sqlglot", reason="no sqlglot: apt-get install python3-sqlglot")

from classroom.exercise.rules import rules_of  # noqa: E402

FULL = bool(os.environ.get("CLASSROOM_FULL"))
MOST = 60  # rows that are picked


def grown(folder: Path, rows: int, tasks: str = "12345") -> Path:
    """The exercise of the examples with so many generated rows, and these of its tasks."""
    others = [name for name in "12345" if name not in tasks]
    shutil.copytree(
        TOP / "examples/beers", folder, ignore=shutil.ignore_patterns("results", *others)
    )
    made = run(TOP / "bench/classroom", folder, str(rows))
    assert made.returncode == 0, made.stderr
    return folder


def rows(folder: Path) -> dict[str, list[tuple[str, ...]]]:
    """The rows of each table, as they stand in the files."""
    texts = {
        table.name: (folder / f"{table.name}.csv").read_text(encoding="utf-8")
        for table in tables_of((folder / "schema.sql").read_text(encoding="utf-8"))
    }
    return {
        name: [tuple(line) for line in csv.reader(io.StringIO(text, newline=""))][1:]
        for name, text in texts.items()
    }


def meets(folder: Path) -> int:
    """Loads the rows into a database with the schema's rules, every one of them enforced; how many
    they are."""
    database = sqlite3.connect(":memory:")
    database.executescript((folder / "schema.sql").read_text(encoding="utf-8"))
    count = 0
    for name, lines in rows(folder).items():
        for line in lines:
            values = [value or None for value in line]
            database.execute(
                f'INSERT INTO "{name}" VALUES ({", ".join("?" for _ in values)})', values
            )
            count += 1
    assert database.execute("PRAGMA foreign_key_check").fetchall() == []
    return count


def told(ran: subprocess.CompletedProcess[str]) -> tuple[int, int, int, int]:
    """From the last line: how many mutants are told, of how many, and by how many rows of how
    many."""
    line = re.fullmatch(
        r"(\d+) of (\d+) mutants told(?:, \d+ of \d+ answers? told,)? by ([\d,]+) of ([\d,]+) rows",
        ran.stdout.splitlines()[-1],
    )
    assert line, ran.stdout
    found = [int(number.replace(",", "")) for number in line.groups()]
    return found[0], found[1], found[2], found[3]


def verdicts(exercise: Path) -> dict[tuple[str, str], tuple[str, str]]:
    found = list(
        csv.reader(
            io.StringIO((exercise / "mutants/mutants.csv").read_text(encoding="utf-8"), newline="")
        )
    )
    return {(line[0], line[6]): (line[3], line[4]) for line in found[1:]}


def compare(whole: Path, picked: Path, *words: str) -> int:
    """Whatever the whole tells is told by the picked rows, with a witness as small; how many that
    are."""
    for folder in (whole, picked):
        assert classroom("mutants", folder, *words).returncode in (0, 1)
    ours, all_rows = verdicts(picked), verdicts(whole)
    assert ours.keys() == all_rows.keys()
    count = 0
    for key, (kind, size) in all_rows.items():
        if kind == "told":
            assert ours[key][0] == "told" and int(ours[key][1]) <= int(size), key
            count += 1
    return count


@pytest.mark.parametrize(
    "count",
    [
        120,
        pytest.param(500, marks=pytest.mark.skipif(not FULL, reason="CLASSROOM_FULL")),
        pytest.param(2000, marks=pytest.mark.skipif(not FULL, reason="CLASSROOM_FULL")),
    ],
)
def test_beers(ratest: Path, ratest_plus: Path, tmp_path: Path, count: int) -> None:
    whole, picked = grown(tmp_path / "whole", count), tmp_path / "picked"
    begun = time.monotonic()
    ran = classroom("pick", whole, picked)
    took = time.monotonic() - begun
    assert (ran.returncode, ran.stderr) == (0, "")
    found = told(ran)
    assert found[1] == 155 and found[2] == meets(picked) and found[3] == count
    assert found[2] <= MOST and (not FULL or took < 300)
    every = rows(whole)
    assert all(line in every[name] for name, lines in rows(picked).items() for line in lines)
    assert (picked / "schema.sql").read_text() == (whole / "schema.sql").read_text()
    # The whole is graded with a budget; what passes it has no verdict to compare.
    assert compare(whole, picked, "--conflicts", "3000", "--time", "20") >= (
        100 if count == 500 else 20
    )
    graded = classroom("grade", picked)
    assert graded.stdout.splitlines()[0] == "15 answers: 15 differ"


def test_same_again(ratest: Path, ratest_plus: Path, tmp_path: Path) -> None:
    """One seed picks the same rows, in another folder and with fewer jobs; a row that is left is
    needed."""
    whole = grown(tmp_path / "whole", 60, "2")
    more: dict[str, list[str]] = {"one": [], "two": ["--jobs", "1"]}
    made = [classroom("pick", whole, tmp_path / name, *words) for name, words in more.items()]
    assert made[0].returncode == 0 and made[0].stdout == made[1].stdout
    assert rows(tmp_path / "one") == rows(tmp_path / "two")


def test_stopped(ratest: Path, ratest_plus: Path, tmp_path: Path) -> None:
    """Stopped in the middle and taken up again, it picks what one run picks, and leaves nothing
    behind."""
    whole = grown(tmp_path / "whole", 60, "2")
    once = classroom("pick", whole, tmp_path / "once")
    for number, kind in enumerate((signal.SIGINT, signal.SIGKILL)):
        folder = tmp_path / str(number)
        process = subprocess.Popen(
            [TOP / "classroom", "pick", whole, folder],
            stdout=subprocess.DEVNULL,
            stderr=subprocess.DEVNULL,
        )
        limit = time.monotonic() + 60
        while len(list(folder.glob("picking/runs/*.json"))) < 20 and time.monotonic() < limit:
            time.sleep(0.02)
        process.send_signal(kind)
        process.wait()
        assert not (folder / "bar.csv").exists()
        ran = classroom("pick", whole, folder)
        assert ran.stdout == once.stdout
        assert rows(folder) == rows(tmp_path / "once")
        assert not [path for path in folder.rglob(".*")]


def test_fewer_rows(ratest: Path, ratest_plus: Path, tmp_path: Path) -> None:
    ran = classroom("pick", grown(tmp_path / "whole", 60, "2"), tmp_path / "picked", "--rows", "9")
    assert ran.returncode == 0
    found = told(ran)
    assert found[2] == meets(tmp_path / "picked") <= 9 and found[0] >= 10


def picked_school(
    tmp_path: Path, count: int, references: dict[str, str]
) -> tuple[Path, tuple[int, int, int, int]]:
    product = Sqlite()
    product.make(tmp_path / "school", made_rows.school(count))
    folder = made_rows.tasks(tmp_path / "picked", references, made_rows.SCHOOL_ANSWERS)
    ran = classroom("pick", product.database, folder)
    assert (ran.returncode, ran.stderr) == (0, ""), ran.stderr
    for name, lines in rows(folder).items():
        for line in lines:
            where = " AND ".join(
                f"{column} IS {made_rows.text(int(value) if value.isdigit() else value or None)}"
                for column, value in zip(columns(folder)[name], line)
            )
            assert product.answer(f"SELECT count(*) FROM {name} WHERE {where}").stdout == "1\n"
    return folder, told(ran)


def columns(folder: Path) -> dict[str, list[str]]:
    return {
        table.name: [column.name for column in table.columns]
        for table in tables_of((folder / "schema.sql").read_text(encoding="utf-8"))
    }


@pytest.mark.skipif(
    not shutil.which("sqlite3"), reason="no program sqlite3: apt-get install sqlite3"
)
def test_school(ratest: Path, ratest_plus: Path, tmp_path: Path) -> None:
    """More rows than the program reads, in SQLite."""
    count = 20_000 if FULL else 2_600
    some = made_rows.SCHOOL_TASKS if FULL else {name: made_rows.SCHOOL_TASKS[name] for name in "13"}
    begun = time.monotonic()
    folder, found = picked_school(tmp_path, count, some)
    assert time.monotonic() - begun < 300 or not FULL
    assert found[3] == count and found[2] == meets(folder) <= MOST
    assert found[0] >= 0.8 * found[1]
    graded = classroom("grade", folder)
    assert graded.stdout.splitlines()[0] == "3 answers: 1 agrees, 1 differs, 1 is wrong SQL"


def test_orders(ratest: Path, ratest_plus: Path, server: Postgres | None, tmp_path: Path) -> None:
    """Orders as those of TPC-H, in PostgreSQL."""
    if server is None:
        pytest.skip("no psql or initdb: apt-get install postgresql")
    count = 20_000 if FULL else 2_600
    server.make(tmp_path, made_rows.orders(count))
    some = made_rows.ORDERS_TASKS if FULL else {name: made_rows.ORDERS_TASKS[name] for name in "14"}
    folder = made_rows.tasks(tmp_path / "picked", some, {})
    begun = time.monotonic()
    ran = classroom("pick", server.database, folder)
    assert time.monotonic() - begun < 300 or not FULL
    assert ran.returncode == 0, ran.stderr
    assert "customer.c_acctbal: numeric becomes INTEGER" in ran.stderr
    found = told(ran)
    assert found[3] == count and found[2] == meets(folder) <= MOST
    for name, lines in rows(folder).items():
        for line in lines:
            where = " AND ".join(
                f"{column} IS NOT DISTINCT FROM {made_rows.text(value or None)}"
                for column, value in zip(columns(folder)[name], line)
            )
            assert server.answer(f"SELECT count(*) FROM {name} WHERE {where}").stdout == "1\n"


def test_broken_rows(ratest: Path, ratest_plus: Path, tmp_path: Path) -> None:
    """Rows that break a key or refer to none are not picked."""
    whole = tmp_path / "whole"
    made_rows.tasks(whole, {"1": "SELECT k FROM u WHERE n > 1"}, {})
    (whole / "schema.sql").write_text(
        "CREATE TABLE t (k INTEGER PRIMARY KEY, UNIQUE (k));"
        "CREATE TABLE u (k INTEGER REFERENCES t, n INTEGER);"
    )
    (whole / "t.csv").write_text("k\n1\n1\n2\n")
    (whole / "u.csv").write_text("k,n\n7,2\n8,1\n1,2\n2,1\n,3\n2,0\n")
    ran = classroom("pick", whole, tmp_path / "picked")
    assert ran.returncode == 0, ran.stderr
    assert meets(tmp_path / "picked") == told(ran)[2]
    assert not {("7", "2"), ("8", "1")} & set(rows(tmp_path / "picked")["u"])


def test_rules() -> None:
    found = rules_of(
        'CREATE TABLE IF NOT EXISTS a (k INT PRIMARY KEY, "x,(" VARCHAR(9) UNIQUE NOT NULL, CHECK'
        ' (k > 0));\nCREATE TABLE b (k INT REFERENCES a, l TEXT REFERENCES a ("x,("), m INT, --'
        " unique\nCONSTRAINT n PRIMARY KEY (k, l), FOREIGN KEY (m) REFERENCES a (k), DEPENDENCY (k)"
        " DETERMINES (m))"
    )
    assert found[0].keys == [["k"], ["x,("]] and found[0].foreigns == []
    assert found[1].keys == [["k", "l"]]
    assert found[1].foreigns == [(["k"], "a", ["k"]), (["l"], "a", ["x,("]), (["m"], "a", ["k"])]


@pytest.mark.parametrize(
    "change, words, line",
    [
        (
            "rm -r 1 2 3 4 5",
            ["whole", "picked"],
            "picked: no task: neither reference.sql nor a folder with one",
        ),
        (
            "true",
            ["whole", "whole"],
            (
                "whole: the rows of this folder would be written over; take another one for the"
                " picked rows"
            ),
        ),
        ("true", ["nosuch.db", "picked"], "there is no file nosuch.db"),
        (
            "rm -r 1 2 4 5; echo 'SELECT nmae FROM bar' > 3/reference.sql",
            ["whole", "picked"],
            (
                "task 3 is left out: reference.sql: no such column: nmae\nclassroom: there is no"
                " task whose reference can be asked about"
            ),
        ),
        (
            "echo 'name,city' > bar.csv; echo 'a,b,c' >> bar.csv",
            ["whole", "picked"],
            "whole/bar.csv: row 1 has 3 fields, not 2",
        ),
        (
            "echo 'bar,beer,price' > serves.csv; echo 'a,b,c' >> serves.csv",
            ["whole", "picked"],
            "whole/serves.csv: row 1: price is no whole number",
        ),
        (
            "echo 'CREATE TABLE t (' > schema.sql",
            ["whole", "picked"],
            "schema.sql: a table without an end",
        ),
    ],
)
def test_refusals(
    ratest: Path, ratest_plus: Path, beers: Path, change: str, words: list[str], line: str
) -> None:
    work = beers.parent
    beers.rename(work / "whole")
    assert run("bash", "-c", change, cwd=work / "whole").returncode == 0
    ran = classroom("pick", *words, cwd=work)
    assert (ran.returncode, ran.stdout, ran.stderr) == (1, "", f"classroom: {line}\n")
    assert not (work / "picked/bar.csv").exists()
