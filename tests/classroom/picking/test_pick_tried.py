"""Rows that are picked for references that a database tries: of a shop's sales, in which just one
row has no amount and just two of one shop have the same."""
from __future__ import annotations

import csv
import os
import re
import shutil
from pathlib import Path

import products
import pytest
from products import classroom, run
from roles import Roles

from classroom.grading.store import Results
from classroom.exercise import material as full

NO_AMOUNT, SAME = 37, (11, 42)
COUNTED = "SELECT shop, COUNT(amount) FROM sale GROUP BY shop"


def script(kind: str, rows: int = 60) -> str:
    """Amounts are of a type that the plain files don't have."""
    lines = []
    for number in range(1, rows + 1):
        like = SAME[0] if number == SAME[1] else number
        lines.append(
            f"({number}, {1 + like % 3}, {'NULL' if number == NO_AMOUNT else f'{like}.25'})"
        )
    return (
        "CREATE TABLE shop (no INTEGER PRIMARY KEY, name TEXT NOT NULL);\nCREATE TABLE sale (id"
        f" INTEGER PRIMARY KEY, shop INTEGER NOT NULL REFERENCES shop, amount {kind});\nINSERT INTO"
        " shop VALUES (1, 'north'), (2, 'south'), (3, 'west');\nINSERT INTO sale VALUES"
        f" {', '.join(lines)};\n"
    )


@pytest.fixture(autouse=True)
def programs(ratest: Path, ratest_plus: Path) -> None:
    os.environ["RATEST"], os.environ["RATEST_PLUS"] = str(ratest.absolute()), str(
        ratest_plus.absolute()
    )


@pytest.fixture
def sales(tmp_path: Path) -> Path:
    if not shutil.which("sqlite3"):
        pytest.skip("no program sqlite3: apt-get install sqlite3")
    made = run("sqlite3", "-bail", tmp_path / "sales.db", input=script("DECIMAL(8, 2)"))
    assert not made.returncode, made.stderr
    return tmp_path / "sales.db"


@pytest.fixture(scope="module")
def server(roles: Roles) -> products.Postgres:
    """That of the two roles, for other databases."""
    return products.Postgres(Path(roles.loader.split()[0].removeprefix("host=")))


def exercise(folder: Path, settings: str = "", **references: str) -> Path:
    for name, reference in references.items():
        (folder / name.removeprefix("t") / "answers").mkdir(parents=True)
        (folder / name.removeprefix("t") / "reference.sql").write_text(reference)
    if settings:
        (folder / "exercise.toml").write_text(settings)
    return folder


def ids(folder: Path, table: str = "sale") -> set[int]:
    """The keys of the picked rows."""
    with open(folder / f"{table}.csv", newline="", encoding="utf-8") as file:
        return {int(line[0]) for line in list(csv.reader(file))[1:]}


def tried_ids(folder: Path, product: str) -> set[int]:
    """Those of the rows that are tried."""
    held = full.read(folder)
    assert held and held.product == product
    return {int(str(row[0])) for of in held.pool.held if of.table.name == "sale" for row in of.rows}


def verdicts(folder: Path) -> dict[tuple[str, str], tuple[str, str]]:
    """Verdict and engine of each mutant, by its task and mistake."""
    with open(folder / "mutants/mutants.csv", newline="", encoding="utf-8") as file:
        return {
            (line["task"], line["mistake"]): (line["verdict"], line["decided_by"])
            for line in csv.DictReader(file)
        }


def test_the_rows_that_a_database_needs_are_picked(sales: Path, tmp_path: Path) -> None:
    folder = exercise(
        tmp_path / "picked", t1="SELECT s.name FROM shop s WHERE s.no > 1", t2=COUNTED
    )
    (folder / "2/answers/ann.sql").write_text("SELECT shop, COUNT(*) FROM sale GROUP BY shop")
    ran = classroom("pick", sales, folder)
    assert ran.returncode == 0, ran.stderr
    # Only these rows tell COUNT(*) and COUNT(DISTINCT amount).
    assert {NO_AMOUNT, *SAME} <= ids(folder)
    lines = ran.stdout.splitlines()
    assert re.fullmatch(r"task 1: \d+ of \d+ mutants told", lines[0])
    assert any(
        re.fullmatch(
            r"task 2: \d+ of \d+ mutants told \(tried\), by sqlite [\d.]+ and not proved", line
        )
        for line in lines
    )
    last = re.fullmatch(
        (
            r"\d+ of \d+ mutants told, \d+ of \d+ mutants told \(tried\), 1 of 1 answer told"
            r" \(tried\), by (\d+) of 63 rows"
        ),
        lines[-1],
    )
    assert last and int(last[1]) == len(ids(folder)) + len(ids(folder, "shop")) <= 24
    # The same rows, in their own types, are what grade tries; and mutants tells of them what was
    # told before.
    assert tried_ids(folder, "sqlite") == ids(folder)
    assert classroom("mutants", folder).returncode == 0
    found = verdicts(folder)
    for mistake in ("COUNT(*) for COUNT(amount)", "DISTINCT in COUNT added"):
        assert found["2", mistake][0] == "told" and found["2", mistake][1].startswith("sqlite ")
    assert {engine for (task, _), (_, engine) in found.items() if task == "1"} == {"proved"}


def test_all_that_is_told_of_the_whole_is_told_of_the_picked_rows(
    sales: Path, tmp_path: Path
) -> None:
    whole, picked = tmp_path / "whole", tmp_path / "picked"
    made = classroom("import", sales, whole)
    assert made.returncode == 0, made.stderr
    exercise(
        whole,
        t2=COUNTED,
        t3=(
            "SELECT name, MAX(amount) FROM shop LEFT JOIN sale ON shop = no GROUP BY no, name"
            " HAVING MAX(amount) > 50"
        ),
    )
    first, second = classroom("pick", whole, picked), classroom(
        "pick", whole, tmp_path / "again", "--jobs", "1"
    )
    assert first.returncode == 0 and first.stdout == second.stdout, first.stderr + second.stderr
    for name in ("sale.csv", "shop.csv", "full.db"):
        assert (picked / name).read_bytes() == (tmp_path / "again" / name).read_bytes()
    assert len(ids(picked)) <= 24
    assert all(classroom("mutants", folder).returncode == 0 for folder in (whole, picked))
    few, every = verdicts(picked), verdicts(whole)
    told = {key for key, (verdict, _) in every.items() if verdict == "told"}
    assert len(told) >= 12 and few.keys() == every.keys()
    assert {key: few[key][0] for key in told} == dict.fromkeys(told, "told")


def test_what_exercise_toml_says_is_heeded(sales: Path, tmp_path: Path) -> None:
    """Duplicates are a mistake where exercise.toml says so, and it goes with the tasks."""
    whole = tmp_path / "whole"
    assert classroom("import", sales, whole).returncode == 0
    exercise(whole, 'duplicates = "wrong"\n', t2="SELECT DISTINCT shop FROM sale WHERE amount > 3")
    ran = classroom("pick", whole, tmp_path / "picked")
    assert ran.returncode == 0, ran.stderr
    assert (tmp_path / "picked/exercise.toml").read_text() == 'duplicates = "wrong"\n'
    assert classroom("mutants", tmp_path / "picked").returncode == 0
    assert verdicts(tmp_path / "picked")["2", "DISTINCT dropped"][0] == "told"


def test_nothing_is_tried_where_only_proofs_are_wanted(sales: Path, tmp_path: Path) -> None:
    folder = exercise(
        tmp_path / "picked", t1="SELECT s.name FROM shop s WHERE s.no > 1", t2=COUNTED
    )
    ran = classroom("pick", sales, folder, "--only-proved")
    assert (
        ran.returncode == 1
        and "task 2 is left out: reference.sql: not supported: count" in ran.stderr
    )
    assert "tried" not in ran.stdout and not ids(folder)


def test_postgresql(server: products.Postgres, roles: Roles, tmp_path: Path) -> None:
    """Of a database, and of what is exported of it."""
    server.make(tmp_path, script("numeric(8, 2)"))
    said = f'engine = "{roles.loader}"\nengine_asker = "{roles.asker}"\n'
    folder = exercise(tmp_path / "picked", said, t2=COUNTED)
    ran = classroom("pick", server.database, folder, "--jobs", "2")
    assert ran.returncode == 0, ran.stderr
    assert {NO_AMOUNT, *SAME} <= ids(
        folder
    ) and "mutants told (tried), by postgresql " in ran.stdout
    assert tried_ids(folder, "postgresql") == ids(folder)
    again = exercise(tmp_path / "again", said, t2="SELECT MIN(amount) FROM sale WHERE shop = 2")
    assert classroom("pick", folder, again, "--jobs", "2").returncode == 0
    assert tried_ids(again, "postgresql") == ids(again) <= ids(folder)


def test_an_engine_that_is_not_there_stops_the_tried_tasks_alone(
    server: products.Postgres, tmp_path: Path
) -> None:
    server.make(tmp_path, script("numeric(8, 2)", 20))
    folder = exercise(
        tmp_path / "picked", t1="SELECT s.name FROM shop s WHERE s.no > 1", t2=COUNTED
    )
    ran = classroom("pick", server.database, folder)
    assert (
        ran.returncode == 1
        and "task 2 is left out" in ran.stderr
        and "nothing is tried: exercise.toml: engine" in ran.stderr
    )
    assert ran.stdout.startswith("task 1: ") and ids(folder, "shop")


def test_records_that_nothing_needs_are_removed(tmp_path: Path) -> None:
    """Of proofs and of trials alike, and nothing else."""
    results = Results(tmp_path)
    results.runs.mkdir()
    kept, gone = "a" * 64, "b" * 64
    for name in (
        f"{kept}.json",
        f"{kept}.trial.json",
        f"{gone}.json",
        f"{gone}.trial.json",
        "own.json",
        f"{gone}.txt",
    ):
        (results.runs / name).write_text("{}")
    results.prune([kept])
    assert {path.name for path in results.runs.iterdir()} == {
        f"{kept}.json",
        f"{kept}.trial.json",
        "own.json",
        f"{gone}.txt",
    }
