"""What `import` keeps of a database as it has it, and the material that is read of it."""
from __future__ import annotations

import os
import sqlite3
import subprocess
from pathlib import Path

import products
import pytest
import shop
from roles import Roles

from classroom.exercise.rows import Row
from classroom.exercise import material as full
from classroom.engines.child import tried
from classroom.verdict.compare import ROWS
from classroom.exercise.typed_rows import from_json, to_json
from classroom.verdict.verdict import Cause, Differs, NoDifference, Refusal

SQLITE = """CREATE TABLE Author (id INTEGER PRIMARY KEY AUTOINCREMENT, "Full Name" TEXT NOT NULL COLLATE NOCASE UNIQUE, born DATE,
  CHECK (length("Full Name") > 1));
CREATE TABLE book (isbn VARCHAR(13) PRIMARY KEY, title TEXT, price DECIMAL(6,2), weight REAL, lent BOOLEAN, by INTEGER REFERENCES author(ID),
  cents INTEGER GENERATED ALWAYS AS (price * 100) STORED) WITHOUT ROWID;
CREATE TABLE photo (taken REAL, image BLOB);
CREATE VIEW cheap AS SELECT title, price FROM book WHERE price < 10;
CREATE VIEW cheapest AS SELECT min(price) AS price FROM cheap;
CREATE VIEW odd AS SELECT * FROM nowhere;
CREATE TRIGGER t AFTER INSERT ON book BEGIN SELECT 1; END;
INSERT INTO author VALUES (3, 'Ann', '1970-01-02'), (1, 'Bob', NULL), (2, 'Cy', '1980-05-06');
INSERT INTO book VALUES ('b', 'Bees', 9.5, 0.25, 1, 3), ('a', 'Ants', 12.25, NULL, 0, 3), ('c', 'Cats', 7, 1.5, NULL, NULL);
INSERT INTO photo VALUES (2.5, x'00ff'), (1.5, NULL);
"""
POSTGRES = """CREATE TYPE mood AS ENUM ('sad', 'glad');
CREATE DOMAIN short AS varchar(20) CHECK (length(VALUE) > 0);
CREATE TABLE author (id serial PRIMARY KEY, "Full Name" short NOT NULL UNIQUE, born date, feels mood);
CREATE TABLE book (isbn char(3) PRIMARY KEY, title text, price numeric(6,2), weight real, lent boolean,
  by integer REFERENCES author, n integer GENERATED ALWAYS AS IDENTITY, cents integer GENERATED ALWAYS AS (price * 100) STORED,
  CHECK (price > 0));
CREATE TABLE photo (taken timestamptz, image bytea, tags text[]);
CREATE VIEW cheap AS SELECT b.title, b.price FROM book b JOIN author a ON a.id = b.by WHERE b.price < 10;
CREATE VIEW cheapest AS SELECT min(cheap.price) AS price FROM cheap;
CREATE FUNCTION f() RETURNS integer LANGUAGE sql AS 'SELECT 1';
INSERT INTO author VALUES (3, 'Ann', '1970-01-02', 'sad'), (1, 'Bob; "x"', NULL, NULL), (2, E'C\\ty\\\\', '1980-05-06', 'glad');
INSERT INTO book (isbn, title, price, weight, lent, by) VALUES ('b', 'Bees', 9.5, 0.25, true, 3), ('a', 'Ants', 12.25, NULL, false, 3),
  ('c', 'Cats', 7, 1.5, NULL, NULL);
INSERT INTO photo VALUES ('2024-01-02 03:04:05+00', '\\x00ff', '{a,b}'), (NULL, NULL, NULL);
"""


@pytest.fixture
def imported(tmp_path: Path) -> Path:
    path = tmp_path / "books.db"
    database = sqlite3.connect(path)
    database.executescript(SQLITE)
    database.close()
    made = products.classroom("import", path, tmp_path / "class")
    assert made.returncode == 0, made.stderr
    return tmp_path / "class"


def test_sqlite_is_kept_as_it_is(imported: Path) -> None:
    material = full.read(imported)
    assert material is not None and material.product == "sqlite"
    assert from_json(to_json(material)) == material
    author, book, photo = material.pool.held
    assert [column.name for column in book.table.columns] == [
        "isbn",
        "title",
        "price",
        "weight",
        "lent",
        "by",
    ]
    assert author.rows == [(1, "Bob", None), (2, "Cy", "1980-05-06"), (3, "Ann", "1970-01-02")]
    assert book.rows[0] == ("a", "Ants", 12.25, None, 0, 3)
    assert photo.rows == [(2.5, b"\x00\xff"), (1.5, None)]
    assert [view.name for view in material.views] == ["cheap", "cheapest"]
    assert len(material.pool.lawful) == 8 and len(material.pool.targets[Row(1, 0)]) == 1
    # The numbers are those of the CSV files.
    assert (imported / "author.csv").read_text().splitlines()[1].startswith("1,")
    database = sqlite3.connect(imported / "full.db")
    assert database.execute(
        "SELECT count(*) FROM sqlite_schema WHERE type = 'trigger'"
    ).fetchone() == (0,)


def test_queries_over_the_real_types_of_sqlite(imported: Path) -> None:
    material = full.read(imported)
    assert material is not None

    def ask(reference: str, answer: str) -> object:
        assert material is not None
        return tried(material, {"reference": reference, "answer": answer}).outcome

    made = ask(
        "SELECT round(avg(price), 2) FROM book",
        "SELECT avg(cents) / 100.0 FROM book WHERE lent IS NOT NULL",
    )
    assert isinstance(made, Differs) and [kept[:2] for kept in made.kept] == [("book", 3)]
    made = ask("SELECT price FROM cheapest", "SELECT min(price) FROM book")
    assert (
        isinstance(made, Differs)
        and made.difference == ROWS
        and {kept.table for kept in made.kept} <= {"author", "book"}
    )
    assert isinstance(
        ask(
            'SELECT "Full Name" FROM author WHERE "full name" = \'ANN\'',
            'SELECT max("Full Name") FROM author WHERE id = 3 HAVING count(*) > 0',
        ),
        NoDifference,
    )
    assert isinstance(
        ask("SELECT image FROM photo", "SELECT image FROM photo WHERE taken > 2"), Differs
    )
    made = ask("SELECT price FROM cheap", "SELECT nosuch FROM cheap")
    assert isinstance(made, Refusal) and made.cause == Cause.NAME


def test_comments_of_the_teacher_stand_in_no_witness(tmp_path: Path) -> None:
    """The statement that a student gets makes the same table."""
    written = """CREATE TABLE "t /* 1 */" ( -- the answer is 42
      a INTEGER NOT NULL, /* whoever 'reads' this
      */ "-- b" TEXT DEFAULT '-- told', [/* c */] TEXT CHECK ([/* c */] <> '/* it''s told */') -- the end
    )"""
    for name, text in (("full.db", written), ("again.db", "")):
        database = sqlite3.connect(tmp_path / name)
        if not text:
            material = full.read(tmp_path)
            assert material
            queries = [f'SELECT {what} FROM "t /* 1 */"' for what in ("a", "a + 1")]
            found = tried(material, dict(zip(("reference", "answer"), queries))).outcome
            assert isinstance(found, Differs)
            text = found.tables[0].statement
            assert (
                not any(word in text for word in ("answer", "reads", "the end"))
                and "'-- told'" in text
                and "'/* it''s told */'" in text
            )
        database.execute(text)
        database.execute('INSERT INTO "t /* 1 */" (a) VALUES (1)')
        assert database.execute('SELECT * FROM "t /* 1 */"').fetchall() == [(1, "-- told", None)]
        with pytest.raises(sqlite3.IntegrityError):
            database.execute("UPDATE \"t /* 1 */\" SET [/* c */] = '/* it''s told */'")
        database.commit()
        database.close()


def test_rows_that_are_not_imported_stand_in_neither(tmp_path: Path) -> None:
    path = tmp_path / "books.db"
    database = sqlite3.connect(path)
    database.executescript(SQLITE)
    database.close()
    made = products.classroom("import", "--rows", "1", path, tmp_path / "class", "author", "book")
    assert made.returncode == 0, made.stderr
    material = full.read(tmp_path / "class")
    assert material is not None and [len(held.rows) for held in material.pool.held] == [2, 1]
    assert [
        line.split(",")[0] for line in (tmp_path / "class/author.csv").read_text().splitlines()[1:]
    ] == ["1", "3"]
    assert [row[0] for row in material.pool.held[0].rows] == [1, 3]


@pytest.fixture
def script(roles: Roles, tmp_path: Path) -> Path:
    owner = roles.owner.replace("ratest_scratch", "books")
    place = roles.owner.split(" dbname")[0]
    products.run(
        "psql",
        "-X",
        "-q",
        "-d",
        f"{place} dbname=postgres",
        "-c",
        "DROP DATABASE IF EXISTS books",
        "-c",
        "CREATE DATABASE books",
    )
    done = products.run("psql", "-X", "-q", "-v", "ON_ERROR_STOP=1", "-d", owner, input=POSTGRES)
    assert done.returncode == 0, done.stderr
    made = products.classroom("import", owner, tmp_path / "class")
    assert made.returncode == 0, made.stderr
    assert "full.sql" not in made.stderr
    return tmp_path / "class"


def test_postgresql_is_kept_as_it_is(script: Path, roles: Roles) -> None:
    material = full.read(script)
    assert material is not None and material.product == "postgresql"
    author, book, photo = material.pool.held
    assert author.rows[0] == ("1", 'Bob; "x"', None, None) and author.rows[1] == (
        "2",
        "C\ty\\",
        "1980-05-06",
        "glad",
    )
    assert [column.name for column in book.table.columns] == [
        "isbn",
        "title",
        "price",
        "weight",
        "lent",
        "by",
        "n",
    ]
    assert photo.rows[0][1:] == ("\\x00ff", "{a,b}")
    assert [view.name for view in material.views] == ["cheap", "cheapest"]
    assert len(material.pool.lawful) == 8 and len(material.pool.targets[Row(1, 0)]) == 1

    def ask(reference: str, answer: str) -> object:
        assert material is not None
        return tried(
            material,
            {
                "reference": reference,
                "answer": answer,
                "engine": roles.loader,
                "asker": roles.asker,
            },
        ).outcome

    made = ask(
        "SELECT avg(price) FROM book",
        "SELECT sum(price) / count(*) FROM book WHERE lent IS NOT NULL",
    )
    assert isinstance(made, Differs) and [kept[:2] for kept in made.kept] == [("book", 3)]
    made = ask("SELECT price FROM cheapest", "SELECT min(price) FROM book WHERE price < 10")
    assert isinstance(made, Differs) and [kept[:2] for kept in made.kept] == [("book", 3)]
    made = ask(
        'SELECT a.id, a."Full Name" FROM author a JOIN book b ON b.by = a.id GROUP BY a.id',
        "SELECT id, \"Full Name\" FROM author WHERE feels = 'sad'",
    )
    assert isinstance(made, Differs)
    assert isinstance(
        ask(
            "SELECT extract(year FROM born) FROM author",
            "SELECT to_char(born, 'YYYY')::numeric FROM author",
        ),
        NoDifference,
    )
    wrong = ask("SELECT id FROM author", "SELECT id, FROM author")
    assert isinstance(wrong, Refusal) and wrong.place == len("SELECT id, ")


def test_all_pairs_in_both_engines_alike(roles: Roles) -> None:
    """Over the shop's rows the two engines come to verdicts of one kind and one size."""
    from test_search import PAIRS, SAME

    for reference, answer in [*[pair[:2] for pair in PAIRS], *SAME]:
        reference, answer = (
            text.replace("substr(city, 1, 1) IN ('B', 'b')", "city LIKE 'B%'")
            for text in (reference, answer)
        )
        lite = shop.tried(reference, answer).outcome
        large = shop.tried(
            reference,
            answer,
            of=shop.material("postgresql"),
            engine=roles.loader,
            asker=roles.asker,
        ).outcome
        assert type(lite) is type(large), (reference, answer, large)
        if isinstance(lite, Differs) and isinstance(large, Differs):
            assert (lite.difference, len(lite.kept), lite.least) == (
                large.difference,
                len(large.kept),
                large.least,
            )


def test_the_database_is_not_changed(imported: Path) -> None:
    before = (imported / "full.db").read_bytes()
    material = full.read(imported)
    assert material is not None
    tried(
        material,
        {"reference": "SELECT title FROM book", "answer": "WITH x AS (SELECT 1) DELETE FROM book"},
    )
    assert (imported / "full.db").read_bytes() == before
    assert (
        subprocess.run(
            ["sqlite3", imported / "full.db", "PRAGMA integrity_check"],
            capture_output=True,
            text=True,
            check=True,
        ).stdout
        == "ok\n"
    )


def test_picked_rows_are_kept_as_they_are(ratest: Path, ratest_plus: Path, tmp_path: Path) -> None:
    """The rows that `pick` keeps, with the columns that schema.sql leaves out."""
    os.environ["RATEST"], os.environ["RATEST_PLUS"] = str(ratest.absolute()), str(
        ratest_plus.absolute()
    )
    database = sqlite3.connect(tmp_path / "many.db")
    database.executescript("CREATE TABLE t (id INTEGER PRIMARY KEY, a INTEGER, b REAL);")
    database.executemany(
        "INSERT INTO t VALUES (?, ?, ?)", [(10 * at, at % 7, at / 4) for at in range(1, 60)]
    )
    database.commit()
    database.close()
    (tmp_path / "few/1").mkdir(parents=True)
    (tmp_path / "few/1/reference.sql").write_text("SELECT id FROM t WHERE a > 3")
    (tmp_path / "few/full.db").write_text("an older one")
    made = products.classroom("pick", tmp_path / "many.db", tmp_path / "few")
    assert made.returncode == 0, made.stderr
    material = full.read(tmp_path / "few")
    assert material is not None
    ids = [line.split(",")[0] for line in (tmp_path / "few/t.csv").read_text().splitlines()[1:]]
    assert [str(row[0]) for row in material.pool.held[0].rows] == ids and 0 < len(ids) < 59
    assert all(
        row == (row[0], row[0] // 10 % 7, row[0] / 40)
        for row in material.pool.held[0].rows
        if isinstance(row[0], int)
    )
