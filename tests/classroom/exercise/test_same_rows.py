"""What is tried are the rows that are proved over: `full.db` and `full.sql` beside edited files."""
from __future__ import annotations

import sqlite3
from pathlib import Path

import products
import pytest
from roles import Roles

from classroom.exercise import material
from classroom.exercise.same_rows import difference, rows_of
from classroom.sql.schema import tables_of

SQLITE = """CREATE TABLE Team ("Full Name" VARCHAR(30) PRIMARY KEY, founded DATE, home TEXT, cups INT, fee DECIMAL(6, 2), open BOOLEAN);
CREATE TABLE goal (at INTEGER, by VARCHAR(30) REFERENCES Team, speed REAL, note TEXT);
INSERT INTO Team VALUES ('Reds', '1900-05-01', 'Bern', 3, 10, 1), ('Blues', NULL, 'Thun', 0, 20, 0), ('Greens', '1911-01-31', NULL, NULL, 5, NULL);
INSERT INTO goal VALUES (5, 'Reds', 20.5, 'wide'), (5, 'Reds', 20.5, 'wide'), (9, 'Blues', 3.25, 'a "b", c
d');
"""
POSTGRES = """CREATE TABLE team (name varchar(30) PRIMARY KEY, founded date, short char(4), home text, cups bigint, fee numeric(6, 2),
  open boolean, since timestamp, local timestamptz, kick time, tags text[], speed real);
INSERT INTO team VALUES
  ('Reds', '1900-05-01', 'R', 'Bern ', 3, 10, true, '2024-01-02 03:04:05', '2024-01-02 03:04:05+00', '20:15', '{a}', 0.5),
  ('Blues', NULL, 'B', 'a,"b"', 0, 20, false, '2024-01-02 03:04:05.25', '2024-01-02 03:04:05.5+00', '20:15:01.5', NULL, 1);
"""
# A file, what is replaced in it, by what, and where the first difference is.
EDITS = [
    ("team.csv", "Bern,3,", "Bern,4,", "table team, row 3, column cups"),
    ("team.csv", "1900-05-01", "1900-05-02", "table team, row 3, column founded"),
    ("team.csv", "1911-01-31,,", "1911-01-31,Rome,", "table team, row 2, column home"),
    ("team.csv", "Bern,3,10,1", "Bern,3,10,", "table team, row 3, column open"),
    ("team.csv", "Bern,3,10", "Bern,3,11", "table team, row 3, column fee"),
    ("team.csv", "Reds", "Yellows", "table team, row 3, column Full Name"),
    ("goal.csv", "9,Blues", "8,Blues", "table goal, row 3, column at"),
    ("goal.csv", "Blues,", "Blues,,", "table goal, row 3, which has 4 fields"),
    (
        "goal.csv",
        "5,Reds,wide\n5,Reds,wide\n",
        "5,Reds,wide\n",
        "table goal, whose row 3 there the CSV file has not",
    ),
    (
        "team.csv",
        "Blues,,",
        "Pinks,,,,,\nBlues,,",
        "table team, row 1, which the database's file has not",
    ),
    (
        "team.csv",
        "Reds,1900-05-01,Bern,3,10,1\n",
        "",
        "table team, whose row 3 there the CSV file has not",
    ),
    (
        "schema.sql",
        "  cups INTEGER,\n",
        "",
        "table team, column cups, which schema.sql has not",
    ),
    (
        "schema.sql",
        "  founded TEXT,\n",
        "",
        "table team, column founded, which schema.sql has not",
    ),
    (
        "schema.sql",
        "  cups INTEGER,\n",
        "  cups INTEGER,\n  lost INTEGER,\n",
        "table team, column lost, which is in schema.sql alone",
    ),
    (
        "schema.sql",
        "CREATE TABLE goal",
        "CREATE TABLE kick",
        "the table kick is in schema.sql alone",
    ),
    # What is written otherwise and is the same.
    ("team.csv", "Bern,3,10,1", 'Bern,"+03",010,1', ""),
    ("schema.sql", "  note TEXT", "  note TEXT NOT NULL", ""),
]


def place(folder: Path) -> str:
    """Where the folder's database first differs from its other files."""
    files = {path.name: path.read_bytes() for path in folder.iterdir() if path.is_file()}
    tables = tables_of(files["schema.sql"].decode())
    whole = material.read(folder)
    assert whole is not None
    return difference(whole, tables, rows_of(files, tables))


@pytest.fixture
def folder(tmp_path: Path) -> Path:
    database = sqlite3.connect(tmp_path / "teams.db")
    database.executescript(SQLITE)
    database.close()
    made = products.classroom("import", tmp_path / "teams.db", tmp_path / "class")
    assert made.returncode == 0, made.stderr
    return tmp_path / "class"


@pytest.mark.parametrize("name, before, after, wanted", EDITS)
def test_an_edit_is_found_by_its_place(
    folder: Path, name: str, before: str, after: str, wanted: str
) -> None:
    assert place(folder) == ""
    text = (folder / name).read_text()
    assert before in text, text
    if name == "schema.sql" and "TABLE" in after:
        (folder / "goal.csv").rename(folder / "kick.csv")
    (folder / name).write_text(text.replace(before, after))
    assert place(folder) == wanted


def test_rows_in_another_order_have_other_numbers(folder: Path) -> None:
    """Pages name rows by their numbers in the CSV file."""
    head, *rows = (folder / "team.csv").read_text().splitlines()
    (folder / "team.csv").write_text("\n".join([head, *reversed(rows), ""]))
    assert place(folder) == "table team, row 1, which stands at another place there"


def test_few_rows_of_many_are_the_same(folder: Path) -> None:
    """Of the rows that are taken no column is told by what the others have."""
    database = sqlite3.connect(folder.parent / "teams.db")
    database.execute("INSERT INTO Team VALUES ('Violets', '1950-01-01', 'Graz', 1, 9.5, 1)")
    database.commit()
    database.close()
    few = folder.parent / "few"
    made = products.classroom("import", folder.parent / "teams.db", few, "Team", "--rows", "2")
    assert "fee: left out" in made.stderr
    assert place(few) == ""


def test_an_edited_cell_is_tried(folder: Path, ratest: Path) -> None:
    """The row that the teacher changed tells the two queries, and one line names it."""
    task = folder / "1"
    (task / "answers").mkdir(parents=True)
    # EXISTS in a column is not read, so only a database decides.
    for path, least in ((task / "reference.sql", 4), (task / "answers/anna.sql", 3)):
        path.write_text(
            'SELECT home, coalesce(max(cups), 0) FROM team LEFT JOIN goal ON by = "Full Name" '
            f"AND at > {least} GROUP BY home HAVING max(at) > 1.5"
        )
    csv = folder / "goal.csv"
    words = ["grade", "--engine", "sqlite", str(folder)]
    told = products.classroom(*words, env={"RATEST": str(ratest), "PATH": "/usr/bin:/bin"})
    assert told.stdout.startswith("1 answer: 1 has no difference that was found"), told.stdout
    csv.write_text(csv.read_text().replace("9,Blues", "4,Blues"))
    told = products.classroom(*words, env={"RATEST": str(ratest), "PATH": "/usr/bin:/bin"})
    assert told.stdout.startswith("1 answer: 1 differs"), told.stdout
    lines = [line for line in told.stderr.splitlines() if "full.db" in line]
    assert len(lines) == 1 and lines[0].endswith("table goal, row 3, column at"), told.stderr


def test_postgresql_writes_the_same_rows(roles: Roles, tmp_path: Path) -> None:
    owner = roles.owner.replace("ratest_scratch", "teams")
    server = roles.owner.split(" dbname")[0]
    for words in (
        ("-d", f"{server} dbname=postgres", "-c", "DROP DATABASE IF EXISTS teams"),
        ("-d", f"{server} dbname=postgres", "-c", "CREATE DATABASE teams"),
    ):
        products.run("psql", "-X", "-q", *words)
    done = products.run("psql", "-X", "-q", "-v", "ON_ERROR_STOP=1", "-d", owner, input=POSTGRES)
    assert done.returncode == 0, done.stderr
    made = products.classroom("import", owner, tmp_path / "class")
    assert made.returncode == 0, made.stderr
    (tmp_path / "class/exercise.toml").unlink(missing_ok=True)
    assert place(tmp_path / "class") == ""
    text = (tmp_path / "class/team.csv").read_text()
    for before, after, column in (
        ("03:04:05.250000", "03:04:05.260000", "since"),
        ("03:04:05.500000+00", "03:04:05.400000+00", "local"),
        ("20:15:01.500000", "20:15:02.500000", "kick"),
        (",B,", ",C,", "short"),
        ("20,0,", "20,1,", "open"),
        ("20,0,", "21,0,", "fee"),
    ):
        assert before in text, text
        (tmp_path / "class/team.csv").write_text(text.replace(before, after))
        assert place(tmp_path / "class") == f"table team, row 1, column {column}"
