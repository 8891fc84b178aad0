"""`classroom grade` where a database decides what `ratest` doesn't read."""
from __future__ import annotations

import csv
import json
import os
import shutil
import signal
import sqlite3
import subprocess
import time
from pathlib import Path

import products
import pytest
from products import TOP, classroom
from roles import Roles

COUNT = (
    "SELECT d.name, COUNT(l.beer) FROM drinker d LEFT JOIN likes l ON l.drinker = d.name GROUP BY"
    " d.name"
)
ENGINE = f"sqlite {sqlite3.sqlite_version}"


def lines(exercise: Path) -> dict[str, dict[str, str]]:
    """The lines of grades.csv by `TASK/ANSWER`."""
    with open(exercise / "results/grades.csv", newline="", encoding="utf-8") as file:
        return {f"{line['task']}/{line['answer']}": line for line in csv.DictReader(file)}


def grade(exercise: Path, *words: str) -> subprocess.CompletedProcess[str]:
    return classroom("grade", exercise, *words)


def add(exercise: Path, task: str, reference: str, **answers: str) -> None:
    (exercise / task / "answers").mkdir(parents=True)
    (exercise / task / "reference.sql").write_text(reference)
    for name, text in answers.items():
        (exercise / task / "answers" / f"{name}.sql").write_text(text)


@pytest.fixture
def beers(ratest: Path, tmp_path: Path) -> Path:
    """The schema and rows of the examples, with the first task alone."""
    os.environ["RATEST"] = str(ratest.absolute())
    return Path(
        shutil.copytree(
            TOP / "examples/beers",
            tmp_path / "beers",
            ignore=shutil.ignore_patterns("results", "[2-5]", "teacher.html"),
        )
    )


def test_what_ratest_does_not_read_is_tried(beers: Path) -> None:
    add(
        beers,
        "6",
        COUNT,
        star=COUNT.replace("COUNT(l.beer)", "COUNT(*)") + ";\n",
        right="SELECT name, (SELECT COUNT(*) FROM likes WHERE drinker = name) FROM drinker",
        wrong="SELECT nam, COUNT(*)\nFROM drinker",
        luck="SELECT name, 2 FROM drinker ORDER BY (SELECT COUNT(*) FROM likes) LIMIT 1",
        clock="SELECT name, date('now') FROM drinker",
        one="SELECT name FROM drinker",
    )
    ran = grade(beers)
    found = lines(beers)
    assert {
        name.split("/")[1]: (line["grade"], line["points"], line["decided_by"])
        for name, line in found.items()
        if name[0] == "6"
    } == {
        "star": ("differs", "0", ENGINE),
        "right": ("no difference found", "1", ENGINE),
        "wrong": ("wrong SQL", "0", ENGINE),
        "luck": ("differs", "0", ENGINE),
        "clock": ("not read", "", ""),
        "one": ("differs", "0", ENGINE),
    }
    assert found["6/star"]["rows"] == "1" and found["6/star"]["fault"] == "other rows"
    assert found["6/one"]["fault"] == "other columns"
    assert found["6/wrong"]["fault"] == "no such column: nam (line 1, column 8)"
    assert found["6/clock"]["fault"] == f"{ENGINE} doesn't try it: it asks the clock: 'now'"
    assert {line["decided_by"] for name, line in found.items() if name[0] == "1"} == {"proved"}
    assert (
        ran.returncode == 1 and ran.stderr == "classroom: 1 of 9 answers are to be graded by hand\n"
    )
    assert "task 6: 1 answer: not read" in ran.stdout
    text = (beers / "results/tasks/6/star.txt").read_text()
    assert text.startswith(
        f"differs (tried, {ENGINE}): other rows\nrows: 1\ndrinker 1: 'Amy', 'Durham'\n"
    )
    assert text.endswith("No smaller lawful part of the rows differs: the only one was tried.\n")
    page = (beers / "results/teacher.html").read_text()
    assert (
        "differs (tried) on 1 row: other rows" in page
        and f"A database found this by trying ({ENGINE}); it is not proved." in page
    )
    assert "no difference found (tried)" in page and "grade differs tried" in page
    tests = {
        of["name"]: of for of in json.loads((beers / "results/results.json").read_text())["tests"]
    }
    assert tests["6/right"]["decided_by"] == tests["6/star"]["decided_by"] == ENGINE
    assert {of["decided_by"] for name, of in tests.items() if name[0] == "1"} == {"proved"}
    assert (
        tests["6/right"]["score"] == 1
        and tests["6/star"]["output"] == text
        and "6/clock" not in tests
    )


def test_nothing_is_tried_where_only_proofs_are_wanted(beers: Path) -> None:
    add(beers, "6", COUNT, right=COUNT)
    ran = grade(beers, "--only-proved")
    assert ran.returncode == 1 and lines(beers)["6/right"]["grade"] == "not graded"
    assert not list((beers / "results/runs").glob("*.trial.json"))


def test_a_limit_of_ratest_is_no_limit_of_the_database(beers: Path) -> None:
    ran = grade(beers, "--work", "1")
    found = lines(beers)
    assert ran.returncode == 0 and {line["decided_by"] for line in found.values()} == {ENGINE}
    assert {line["grade"] for line in found.values()} == {"differs"}


def test_tried_witnesses_are_as_small_as_proved_ones(beers: Path) -> None:
    grade(beers)
    proved = {name: line["rows"] for name, line in lines(beers).items()}
    grade(beers, "--work", "1")
    assert {name: line["rows"] for name, line in lines(beers).items()} == proved


def test_by_hand(beers: Path) -> None:
    add(beers, "6", COUNT, right=COUNT)
    (beers / "exercise.toml").write_text('tried = "by hand"\n')
    ran = grade(beers)
    assert ran.returncode == 1 and "task 6: 1 answer: no difference found (right)" in ran.stdout
    assert (lines(beers)["6/right"]["grade"], lines(beers)["6/right"]["points"]) == (
        "no difference found",
        "",
    )


@pytest.mark.parametrize(
    "said, grade_of_set, grade_of_tried, remark",
    [
        ("report", "agrees", "no difference found", True),
        ("ignore", "agrees", "no difference found", False),
        ("wrong", "differs", "differs", False),
    ],
)
def test_duplicates(
    beers: Path, said: str, grade_of_set: str, grade_of_tried: str, remark: bool
) -> None:
    """Of a proved pair and of a tried one alike."""
    add(beers, "6", "SELECT DISTINCT bar FROM serves", answer="SELECT bar FROM serves")
    add(beers, "7", "SELECT bar FROM serves GROUP BY bar", answer="SELECT bar FROM serves")
    (beers / "exercise.toml").write_text(f'duplicates = "{said}"\n')
    grade(beers)
    found = lines(beers)
    assert [found[name]["grade"] for name in ("6/answer", "7/answer")] == [
        grade_of_set,
        grade_of_tried,
    ]
    assert found["6/answer"]["decided_by"] == ("proved" if grade_of_set == "agrees" else ENGINE)
    told = "as a set; returns Joe's twice where the reference returns it once"
    if said == "wrong":
        assert (
            found["6/answer"]["fault"]
            == found["7/answer"]["fault"]
            == "the same rows another number of times"
        )
    else:
        assert [found[name]["fault"] for name in ("6/answer", "7/answer")] == (
            [f"agrees {told}", f"the same {told}"] if remark else ["", ""]
        )
        page = (beers / "results/teacher.html").read_text()
        assert ("answer: agrees as a set; returns Joe&#39;s twice" in page) == remark


def test_order(beers: Path) -> None:
    add(
        beers,
        "6",
        "SELECT name FROM beer ORDER BY name",
        answer="SELECT name FROM beer ORDER BY name DESC",
    )
    grade(beers)
    assert (
        lines(beers)["6/answer"]["fault"]
        == "the same as a set; returns the same rows in another order"
    )
    (beers / "exercise.toml").write_text('order = "wrong"\n')
    grade(beers)
    assert lines(beers)["6/answer"]["grade"] == "differs"
    assert lines(beers)["6/answer"]["fault"] == "the same rows in another order"


def test_not_determined(beers: Path) -> None:
    add(
        beers,
        "6",
        "SELECT name FROM beer ORDER BY name LIMIT 1",
        answer="SELECT name FROM beer LIMIT 1",
    )
    ran = grade(beers)
    line = lines(beers)["6/answer"]
    assert (line["grade"], line["points"], line["decided_by"]) == ("not determined", "", ENGINE)
    assert (
        line["fault"]
        == "What the answer returns depends on the order in which the rows are stored."
    )
    assert "not determined" in ran.stdout and ran.returncode == 1


def test_a_trial_is_kept(beers: Path) -> None:
    add(beers, "6", COUNT, star=COUNT.replace("l.beer", "*"))
    grade(beers)
    kept = {
        path.name: path.stat().st_mtime_ns for path in (beers / "results/runs").glob("*.trial.json")
    }
    assert kept
    grade(beers)
    assert {
        path.name: path.stat().st_mtime_ns for path in (beers / "results/runs").glob("*.trial.json")
    } == kept
    page = (beers / "results/teacher.html").read_bytes()
    assert (
        classroom("page", beers).returncode == 0
        and (beers / "results/teacher.html").read_bytes() == page
    )
    (beers / "6/answers/star.sql").write_text(COUNT)
    grade(beers)
    assert lines(beers)["6/star"]["grade"] == "no difference found"
    assert not set(kept) & {path.name for path in (beers / "results/runs").glob("*.trial.json")}


def test_killed_and_run_again(beers: Path) -> None:
    add(
        beers,
        "6",
        COUNT,
        **{f"a{number}": f"{COUNT} HAVING COUNT(*) > {number}" for number in range(6)},
    )
    whole = beers.with_name("whole")
    shutil.copytree(beers, whole)
    grade(whole)
    for seconds in (0.5, 1.0, 1.5):
        process = subprocess.Popen(
            [TOP / "classroom", "grade", beers],
            stdout=subprocess.DEVNULL,
            stderr=subprocess.DEVNULL,
        )
        time.sleep(seconds)
        process.send_signal(signal.SIGKILL)
        process.wait()
    grade(beers)
    assert {name: {**line, "seconds": ""} for name, line in lines(beers).items()} == {
        name: {**line, "seconds": ""} for name, line in lines(whole).items()
    }
    assert (beers / "results/tasks/6/a3.txt").read_bytes() == (
        whole / "results/tasks/6/a3.txt"
    ).read_bytes()


def test_nothing_of_the_reference_in_what_a_database_says(beers: Path) -> None:
    """But for what it answers on the rows that are shown."""
    add(
        beers,
        "6",
        "SELECT name, 'a word of the reference' FROM drinker WHERE nosuch_in_it = 1",
        answer="SELECT name, 1 FROM drinker",
    )
    grade(beers)
    assert lines(beers)["6/answer"]["grade"] == "not graded"
    add(beers, "7", f"{COUNT} HAVING COUNT(*) < 987654", star=COUNT.replace("l.beer", "*"))
    grade(beers)
    public = (beers / "results/students.html").read_text()
    assert (
        "987654" not in public
        and "nosuch_in_it" not in public
        and "a word of the reference" not in public
    )


def test_the_real_types_of_a_database(ratest: Path, tmp_path: Path) -> None:
    """Columns that are left out of schema.sql, and views, are there for the database."""
    os.environ["RATEST"] = str(ratest.absolute())
    database = sqlite3.connect(tmp_path / "books.db")
    database.executescript(
        """CREATE TABLE book (id INTEGER PRIMARY KEY, title TEXT, price REAL);
        CREATE VIEW dear AS SELECT title FROM book WHERE price > 9.5;
        INSERT INTO book VALUES (1, 'Ants', 12.25), (2, 'Bees', 9.5), (3, 'Cats', 7);"""
    )
    database.close()
    assert classroom("import", tmp_path / "books.db", tmp_path / "class").returncode == 0
    add(
        tmp_path / "class",
        "1",
        "SELECT title FROM book WHERE price >= 9.5",
        right="SELECT title FROM book WHERE NOT price < 9.5",
        view="SELECT title FROM dear",
        quoted='SELECT "titel" FROM book',
    )
    ran = grade(tmp_path / "class")
    found = lines(tmp_path / "class")
    assert {name: line["grade"] for name, line in found.items()} == {
        "1/right": "no difference found",
        "1/view": "differs",
        "1/quoted": "wrong SQL",
    }, ran.stderr
    assert ran.returncode == 0
    assert "book 2: 2, 'Bees', 9.5" in (tmp_path / "class/results/tasks/1/view.txt").read_text()


def test_types_of_the_database_that_answer_otherwise(ratest: Path, tmp_path: Path) -> None:
    """A CHAR of a collation without case is a text of bytes in the CSV file: a proof over those is
    looked at."""
    os.environ["RATEST"] = str(ratest.absolute())
    database = sqlite3.connect(tmp_path / "names.db")
    database.executescript(
        "CREATE TABLE t (a TEXT COLLATE NOCASE); INSERT INTO t VALUES ('Ann'), ('ann'), ('Bob');"
    )
    database.close()
    assert classroom("import", tmp_path / "names.db", tmp_path / "class").returncode == 0
    add(
        tmp_path / "class",
        "1",
        "SELECT a FROM t WHERE a = 'BOB'",
        other="SELECT a FROM t WHERE a = 'CY'",
        same="SELECT a FROM t WHERE 'BOB' = a",
    )
    ran = grade(tmp_path / "class")
    found = lines(tmp_path / "class")["1/other"]
    assert (found["grade"], found["points"], found["decided_by"]) == ("agrees", "", "proved")
    assert (
        found["fault"]
        == "agrees over the CSV files; the database with its own types answers otherwise"
    )
    assert "agrees over the CSV files" in ran.stdout and ran.returncode == 1


def test_a_name_that_the_database_has_is_never_nowhere(ratest: Path, tmp_path: Path) -> None:
    """A view and a column that schema.sql has not, where the rows of the CSV files are tried."""
    owner = tmp_path / "s.db"
    with sqlite3.connect(owner) as database:
        database.executescript(
            "CREATE TABLE part (id INTEGER PRIMARY KEY, weight REAL, name TEXT NOT NULL);"
            "INSERT INTO part VALUES (1, 1.5, 'a'), (2, 2.5, 'b');"
            "CREATE VIEW light AS SELECT id, name AS short FROM part WHERE weight < 2;"
        )
    made = tmp_path / "class"
    assert classroom("import", owner, made).returncode == 0
    with open(made / "part.csv", "a", encoding="utf-8") as rows:
        rows.write("3,c\n")
    add(
        made,
        "1",
        "SELECT count(*) FROM part",
        view="SELECT count(*) FROM light",
        column="SELECT count(weight) FROM part",
        nowhere="SELECT count(wieght) FROM part",
    )
    assert grade(made).returncode == 1
    assert {name: of["grade"] for name, of in lines(made).items()} == {
        "1/view": "not read",
        "1/column": "not read",
        "1/nowhere": "wrong SQL",
    }


def test_a_schema_that_ratest_refuses(ratest: Path, tmp_path: Path) -> None:
    os.environ["RATEST"] = str(ratest.absolute())
    database = sqlite3.connect(tmp_path / "full.db")
    database.executescript("CREATE TABLE t (a REAL); INSERT INTO t VALUES (1.5), (2.5);")
    database.close()
    (tmp_path / "schema.sql").write_text("CREATE TABLE t (a REAL);")
    (tmp_path / "t.csv").write_text("a\n1.5\n2.5\n")
    add(
        tmp_path,
        "1",
        "SELECT max(a) FROM t",
        right="SELECT a FROM t ORDER BY a DESC LIMIT 1",
        wrong="SELECT min(a) FROM t",
    )
    ran = grade(tmp_path)
    assert (
        lines(tmp_path)["1/wrong"]["grade"] == "differs"
        and lines(tmp_path)["1/wrong"]["rows"] == "2"
    ), ran.stderr
    assert (
        lines(tmp_path)["1/right"]["grade"] == "differs"
    )  # over no rows one answers NULL and the other nothing
    assert grade(tmp_path, "--only-proved").returncode == 1


def test_postgresql_tries(beers: Path, roles: Roles) -> None:
    import psycopg

    with psycopg.connect(roles.loader) as session:
        version = str(session.execute("SHOW server_version").fetchone()[0]).split()[0]  # type: ignore[index]
    add(
        beers,
        "6",
        COUNT,
        star=COUNT.replace("l.beer", "*"),
        right=COUNT.replace("l.beer", "l.drinker"),
        wrong="SELECT nosuch FROM beer",
        own=(
            "SELECT name, (SELECT COUNT(*) FROM likes WHERE drinker = name)::integer FROM drinker"
            " WHERE name ILIKE '%'"
        ),
    )
    (beers / "exercise.toml").write_text(
        f'engine = "{roles.loader}"\nengine_asker = "{roles.asker}"\n'
    )
    ran = grade(beers)
    found = {name[2:]: line for name, line in lines(beers).items() if name[0] == "6"}
    assert {name: line["grade"] for name, line in found.items()} == {
        "star": "differs",
        "right": "no difference found",
        "wrong": "wrong SQL",
        "own": "no difference found",
    }, ran.stderr
    assert {line["decided_by"] for line in found.values()} == {f"postgresql {version}"} and found[
        "star"
    ]["rows"] == "1"
    # What exercise.toml says, a word of the command overrides.
    grade(beers, "--engine", "sqlite")
    assert (
        lines(beers)["6/star"]["decided_by"] == ENGINE
        and lines(beers)["6/own"]["grade"] != "no difference found"
    )


@pytest.mark.parametrize(
    "said, told",
    [
        (
            'engine = "oracle"',
            "engine: oracle: sqlite is wanted, or a connection as postgresql://USER@HOST/DATABASE",
        ),
        (
            'engine = "postgresql://nobody@/nowhere?host=/nosuch"',
            "engine and engine_asker: the connections of two roles",
        ),
        ('engine = "host=/nosuch"\nengine_asker = "host=/nosuch"', "engine: connection"),
    ],
)
def test_an_engine_that_can_not_be_had(beers: Path, said: str, told: str) -> None:
    """The proved grades are there all the same."""
    pytest.importorskip("psycopg", reason="no psycopg: apt-get install python3-psycopg")
    add(beers, "6", COUNT, right=COUNT)
    (beers / "exercise.toml").write_text(said + "\n")
    ran = grade(beers)
    assert "nothing is tried" in ran.stderr and told in ran.stderr, ran.stderr
    assert (
        lines(beers)["1/a"]["grade"] == "differs"
        and lines(beers)["6/right"]["grade"] == "not graded"
    )


def test_import_names_the_engine(roles: Roles, tmp_path: Path) -> None:
    place = roles.owner.split(" dbname")[0]
    products.run(
        "psql",
        "-X",
        "-q",
        "-d",
        f"{place} dbname=postgres",
        "-c",
        "DROP DATABASE IF EXISTS small",
        "-c",
        "CREATE DATABASE small",
    )
    owner = roles.owner.replace("ratest_scratch", "small")
    products.run(
        "psql",
        "-X",
        "-q",
        "-d",
        owner,
        "-c",
        "CREATE TABLE t (a integer); INSERT INTO t VALUES (1)",
    )
    (tmp_path / "class").mkdir()
    (tmp_path / "class/exercise.toml").write_text('title = "Small"\n')
    assert classroom("import", owner, tmp_path / "class").returncode == 0
    text = (tmp_path / "class/exercise.toml").read_text()
    assert (
        "user=ratest_loader" in text
        and "user=ratest_asker" in text
        and text.endswith('title = "Small"\n')
        and "password" not in text
    )
    assert classroom("import", owner, tmp_path / "class").returncode == 0
    assert (tmp_path / "class/exercise.toml").read_text() == text


def test_wrong_sql_is_told_where_the_reference_can_not_be_tried(beers: Path) -> None:
    """SQLite takes COMMIT for its own word. What it says of the reference is in no student's
    file."""
    add(
        beers,
        "6",
        "SELECT commit.name FROM bar commit EXCEPT SELECT bar FROM serves",
        wrong="SELECT nosuch FROM bar",
        count="SELECT count(*) FROM bar",
    )
    assert grade(beers).returncode == 1
    found = lines(beers)
    assert [
        (
            found[f"6/{name}"]["grade"],
            found[f"6/{name}"]["points"],
            found[f"6/{name}"]["decided_by"],
        )
        for name in ("wrong", "count")
    ] == [("wrong SQL", "0", ENGINE), ("not read", "", "")]
    assert found["6/count"]["fault"] == (
        f"not supported: count; reference.sql: PostgreSQL reads it, and {ENGINE} doesn't: near"
        ' "commit": syntax error'
    )
    assert classroom("feedback", beers).returncode == 0
    told = {path.name: path.read_text() for path in (beers / "results/feedback").glob("*.md")}
    assert "**not read: not supported: count**" in told["count.md"]
    assert not [
        name for name, text in told.items() if "reference.sql" in text or "syntax error" in text
    ]


def test_parentheses_around_an_operand_are_no_fault(beers: Path) -> None:
    """SQLite has none: it gets the answers rewritten, and the reference too."""
    parts = "(SELECT name FROM bar)", "(SELECT bar FROM serves WHERE price > 2)"
    add(
        beers,
        "6",
        f"{parts[0]} EXCEPT {parts[1]}",
        same=f"SELECT q.name FROM ({parts[0]} EXCEPT {parts[1]}) q GROUP BY q.name",
        other=f"{parts[0]} UNION {parts[1]} ORDER BY name",
        plain="SELECT name FROM bar GROUP BY name",
    )
    assert grade(beers).returncode == 0
    found = lines(beers)
    assert [
        (found[f"6/{name}"]["grade"], found[f"6/{name}"]["decided_by"])
        for name in ("same", "other", "plain")
    ] == [
        ("no difference found", f"{ENGINE} after rewriting both"),
        ("differs", f"{ENGINE} after rewriting both"),
        ("differs", f"{ENGINE} after rewriting the reference"),
    ]
