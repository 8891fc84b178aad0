"""Mutants of references that a database tries."""
from __future__ import annotations

import csv
import os
import shutil
import signal
import threading
import time
from pathlib import Path

import pytest
import shop
from products import TOP, classroom

from classroom.exercise.exercise import Task
from classroom.mutants import mutant_trials as trying
from classroom.edits.families import BAGS, LISTS, TRIED
from classroom.mutants.proofs import OPEN, TOLD
from classroom.mutants.mutants import mutants
from classroom.mutants.mutants_csv import Judged
from classroom.grading.store import Results
from classroom.exercise.settings import Settings
from classroom.engines import run_child as asking
from classroom.engines.run_child import Options
from classroom.grading.trials import Trial

TABLES = [held.table for held in shop.pool().held]

# A query, and what a mistake makes of it.
MADE = [
    (
        "SELECT COUNT(o.no) FROM orders o",
        "COUNT(*) for COUNT(o.no)",
        "SELECT COUNT(*) FROM orders AS o",
    ),
    (
        "SELECT COUNT(DISTINCT customer) FROM orders",
        "DISTINCT in COUNT dropped",
        "SELECT COUNT(customer) FROM orders",
    ),
    (
        "SELECT COUNT(customer) FROM orders",
        "DISTINCT in COUNT added",
        "SELECT COUNT(DISTINCT customer) FROM orders",
    ),
    ("SELECT AVG(price) FROM product", "SUM for AVG", "SELECT SUM(price) FROM product"),
    ("SELECT MIN(price) FROM product", "MAX for MIN", "SELECT MAX(price) FROM product"),
    (
        "SELECT kind FROM product GROUP BY kind HAVING AVG(price) > 3",
        "HAVING dropped",
        "SELECT kind FROM product GROUP BY kind",
    ),
    (
        "SELECT kind FROM product GROUP BY kind HAVING AVG(price) > 3",
        "WHERE for HAVING",
        "SELECT kind FROM product WHERE price > 3 GROUP BY kind",
    ),
    (
        "SELECT kind FROM product WHERE sku > 'a' GROUP BY kind HAVING MAX(price) > 3",
        "WHERE for HAVING",
        "SELECT kind FROM product WHERE sku > 'a' AND price > 3 GROUP BY kind",
    ),
    (
        "SELECT COUNT(*) FROM product GROUP BY kind, price",
        "GROUP BY without kind",
        "SELECT COUNT(*) FROM product GROUP BY price",
    ),
    (
        "SELECT COUNT(*) FROM product GROUP BY kind",
        "GROUP BY sku for kind",
        "SELECT COUNT(*) FROM product GROUP BY sku",
    ),
    (
        "SELECT c.id FROM customer c LEFT JOIN orders o ON o.customer = c.id",
        "JOIN for LEFT JOIN",
        "SELECT c.id FROM customer AS c JOIN orders AS o ON o.customer = c.id",
    ),
    (
        "SELECT c.id FROM customer c JOIN orders o ON o.customer = c.id",
        "LEFT JOIN for JOIN",
        "SELECT c.id FROM customer AS c LEFT JOIN orders AS o ON o.customer = c.id",
    ),
    (
        "SELECT sku FROM product ORDER BY price DESC, sku LIMIT 2",
        "ASC for DESC of price",
        "SELECT sku FROM product ORDER BY price, sku LIMIT 2",
    ),
    (
        "SELECT sku FROM product ORDER BY price DESC, sku LIMIT 2",
        "ORDER BY without sku",
        "SELECT sku FROM product ORDER BY price DESC LIMIT 2",
    ),
    (
        "SELECT sku FROM product ORDER BY price DESC, sku LIMIT 2",
        "LIMIT 3 for 2",
        "SELECT sku FROM product ORDER BY price DESC, sku LIMIT 3",
    ),
    (
        "SELECT sku FROM product ORDER BY sku",
        "DESC for ASC of sku",
        "SELECT sku FROM product ORDER BY sku DESC",
    ),
    ("SELECT DISTINCT kind FROM product", "DISTINCT dropped", "SELECT kind FROM product"),
    ("SELECT kind FROM product", "DISTINCT added", "SELECT DISTINCT kind FROM product"),
    (
        "SELECT sku FROM product UNION SELECT sku FROM item",
        "UNION ALL for UNION",
        "SELECT sku FROM product UNION ALL SELECT sku FROM item",
    ),
    (
        "SELECT sku FROM product UNION ALL SELECT sku FROM item",
        "UNION for UNION ALL",
        "SELECT sku FROM product UNION SELECT sku FROM item",
    ),
]


@pytest.mark.parametrize("query, mistake, text", MADE)
def test_each_mistake(query: str, mistake: str, text: str) -> None:
    made = {
        mutant.mistake: mutant.text for mutant in mutants(query, TABLES, (*TRIED, *BAGS, *LISTS))
    }
    assert made.get(mistake) == text, made


@pytest.fixture
def beers(ratest: Path, ratest_plus: Path, tmp_path: Path) -> Path:
    os.environ["RATEST"], os.environ["RATEST_PLUS"] = str(ratest.absolute()), str(
        ratest_plus.absolute()
    )
    folder = Path(
        shutil.copytree(
            TOP / "examples/beers",
            tmp_path / "beers",
            ignore=shutil.ignore_patterns("results", "[1345]", "teacher.html"),
        )
    )
    (folder / "6").mkdir()
    (folder / "6/reference.sql").write_text(
        "SELECT bar, COUNT(beer) FROM serves GROUP BY bar HAVING COUNT(beer) >= 2"
    )
    return folder


def lines(folder: Path) -> list[dict[str, str]]:
    with open(folder / "mutants/mutants.csv", newline="", encoding="utf-8") as file:
        return list(csv.DictReader(file))


def test_mutants_of_proved_and_tried_tasks(beers: Path) -> None:
    ran = classroom("mutants", beers)
    assert ran.returncode == 0, ran.stderr
    assert ran.stdout.startswith("task 2: 13 of 14 mutants told\n") and "\ntask 6: " in ran.stdout
    found = {
        line["mistake"]: (line["verdict"], line["rows"])
        for line in lines(beers)
        if line["task"] == "6"
    }
    # Two rows of a bar are asked for, and with what they refer to these are five.
    assert found["> for >="] == ("told", "5") and found["HAVING dropped"][0] == "told"
    # A bar serves a beer once.
    assert found["COUNT(*) for COUNT(beer)"][0] == "no difference found"
    kept = {
        path.name: path.stat().st_mtime_ns for path in (beers / "mutants/runs").glob("*.trial.json")
    }
    assert kept and classroom("mutants", beers).stdout == ran.stdout
    assert {
        path.name: path.stat().st_mtime_ns for path in (beers / "mutants/runs").glob("*.trial.json")
    } == kept


def test_ties_of_a_reference_are_told_once_a_task(beers: Path) -> None:
    most = "SELECT beer FROM serves GROUP BY beer ORDER BY COUNT(*) DESC"
    (beers / "6/reference.sql").write_text(f"{most} LIMIT 1")
    ran = classroom("mutants", beers, "--task", "6")
    assert ran.returncode == 0, ran.stderr
    told = [line for line in ran.stderr.splitlines() if "reference.sql" in line]
    assert len(told) == 1 and "task 6: reference.sql has ties, for example on the rows" in told[0]
    assert told[0].endswith("with beer as last keys of its ORDER BY it is determined")
    # A mutant is told by rows on which neither has ties.
    found = {line["mistake"]: line["verdict"] for line in lines(beers)}
    assert found["ASC for DESC of COUNT(*)"] == "told", found
    (beers / "6/reference.sql").write_text(f"{most}, beer LIMIT 1")
    assert "reference.sql" not in classroom("mutants", beers, "--task", "6").stderr


def test_nothing_is_tried_where_only_proofs_are_wanted(beers: Path) -> None:
    ran = classroom("mutants", beers, "--only-proved")
    assert ran.returncode == 1 and {line["task"] for line in lines(beers)} == {"2"}


def test_duplicates_where_they_count(beers: Path) -> None:
    (beers / "6/reference.sql").write_text("SELECT DISTINCT bar FROM serves WHERE beer LIKE '%'")
    (beers / "exercise.toml").write_text('duplicates = "wrong"\n')
    assert classroom("mutants", beers, "--task", "6").returncode == 0
    assert {line["mistake"]: line["verdict"] for line in lines(beers)}["DISTINCT dropped"] == "told"


# What a process does where a mutant has MAX, before it tries the others as ever.
CHILD = f"""
import sys; sys.path.insert(0, {str(TOP / "python")!r})
import os, signal, time
import classroom.engines.child as child
ever = child.tried
def tried(material, question, parts):
    if "MAX" in question["answer"]:
        WHAT
    return ever(material, question, parts)
child.tried = tried
child.main()
"""


def mutants_of(folder: Path, monkeypatch: pytest.MonkeyPatch, what: str) -> list[Judged]:
    (folder / "child.py").write_text(CHILD.replace("WHAT", what))
    monkeypatch.setattr(asking, "CHILD", folder / "child.py")
    results = Results(folder / "mutants")
    results.runs.mkdir(parents=True)
    return trying.mutants(
        Trial(shop.material(), Options(), (), True),
        Task("1", Path("1"), reference=b"SELECT MIN(price) FROM product WHERE price > 1"),
        Settings(),
        results,
        2,
    ).judged


def test_a_crash_loses_one_mutant(
    tmp_path: Path, monkeypatch: pytest.MonkeyPatch, caplog: pytest.LogCaptureFixture
) -> None:
    found = {
        one.of.mistake: one.verdict
        for one in mutants_of(tmp_path, monkeypatch, "os.kill(os.getpid(), signal.SIGSEGV)")
    }
    lost = found.pop("MAX for MIN")
    assert (lost.kind, lost.why) == (OPEN, "its process failed")
    assert "MAX for MIN is not tried: its process ended with signal 11" in caplog.text
    assert (
        found
        and TOLD in {one.kind for one in found.values()}
        and OPEN not in {one.kind for one in found.values()}
    )
    # It is asked again the next time.
    assert len(list((tmp_path / "mutants/runs").iterdir())) == len(found) + 1


def test_what_is_stopped_ends_at_once(tmp_path: Path, monkeypatch: pytest.MonkeyPatch) -> None:
    """As by Ctrl-C, which comes while a child has long to go."""
    place = tmp_path / "pid"

    def interrupt() -> None:
        while not (place.exists() and place.read_text()):
            time.sleep(0.01)
        os.kill(os.getpid(), signal.SIGINT)

    threading.Thread(target=interrupt).start()
    begun = time.monotonic()
    with pytest.raises(KeyboardInterrupt):
        mutants_of(
            tmp_path,
            monkeypatch,
            f"open({str(place)!r}, 'w').write(str(os.getpid())); time.sleep(3600)",
        )
    assert time.monotonic() - begun < 60
    with pytest.raises(ProcessLookupError):
        os.kill(int(place.read_text()), 0)
