"""`classroom import`: both databases' exports, compared with what the databases answer."""
from __future__ import annotations

import re
import sqlite3
from itertools import product as pairs
from pathlib import Path

import pytest
from import_cases import (
    CASES,
    FILES,
    ODD,
    ODD_NOTES,
    ODD_QUERIES,
    ODD_SCHEMA,
    OWN,
    POSTGRES_CASES,
    SQLITE_CASES,
)
from import_conditions import (
    CARRIED,
    CARRIED_POSTGRES,
    CARRIED_SQLITE,
    COLLATIONS,
    COLUMNS,
    DOMAINS,
    INTEGERS,
    LEFT,
    LEFT_POSTGRES,
    LEFT_SQLITE,
    OWN_LEFT,
    TEXTS,
)
from products import (
    TOP,
    Postgres,
    Product,
    Sqlite,
    classroom,
    content,
    export,
    quoted,
    run,
    whole_answers,
)

from classroom.sql.schema import literal


def put(text: str, words: dict[str, str]) -> str:
    for word, means in words.items():
        text = text.replace("{" + word + "}", means)
    return text


def notes(product: Product, text: str) -> str:
    return "".join(f"classroom: {line}\n" for line in put(text, OWN[type(product)]).splitlines())


def test_odd_tables(ratest: Path, product: Product, tmp_path: Path) -> None:
    product.make(tmp_path / "odd", put(ODD, OWN[type(product)]))
    told = whole_answers(ratest, product, tmp_path, ODD_QUERIES)
    assert told == notes(product, ODD_NOTES)
    assert content(tmp_path / "whole folder")["schema.sql"] == put(ODD_SCHEMA, OWN[type(product)])


@pytest.mark.parametrize(
    "product, name",
    [
        *(("sqlite", name) for name in (*CASES, *SQLITE_CASES)),
        *(("postgres", name) for name in (*CASES, *POSTGRES_CASES)),
    ],
    indirect=["product"],
)
def test_case(ratest: Path, product: Product, tmp_path: Path, name: str) -> None:
    own = SQLITE_CASES if isinstance(product, Sqlite) else POSTGRES_CASES
    text, words, is_good, told = {**CASES, **own}[name]
    product.make(tmp_path / name, put(text, OWN[type(product)]))
    folder = tmp_path / "exercise"
    made = export(product, folder, words.split())
    assert (made.returncode, made.stdout, made.stderr) == (
        0 if is_good else 1,
        "",
        notes(product, told),
    )
    assert folder.is_dir() == is_good
    if name in FILES:
        assert content(folder) == FILES[name]
    table = (
        re.search(r'TABLE ("(?:[^"]|"")*"|\w+)', content(folder)["schema.sql"]) if is_good else None
    )
    if table:
        # `ratest` reads what was written.
        query = tmp_path / "query.sql"
        query.write_text(f"SELECT * FROM {table[1]}")
        ran = run(ratest, folder / "schema.sql", folder, query, query)
        assert ran.stdout == "agree\n", ran.stderr


TYPES = {
    Sqlite: """
        CREATE TABLE t (id INTEGER PRIMARY KEY, d DATE CHECK (d > '2000-01-01'), at TIME, stamp TIMESTAMP UNIQUE,
          flag BOOLEAN CHECK (flag IN (0, 1)), whole NUMERIC(9, 0) CHECK (whole < 100), price DECIMAL(8,2),
          other DATE, mixed TIMESTAMP, yes BOOLEAN, part NUMERIC, n TEXT,
          CHECK (d <> n), CHECK (d > '2000'), CHECK (d <= other), CHECK (price >= whole));
        CREATE TABLE u (d DATE REFERENCES t (d), name TEXT);
        INSERT INTO t VALUES (1, '2004-05-17', '08:30', '2004-05-17 08:30:00', 1, 7, 10.0, '2010-01-01',
            '2004-05-17', 1, 0.5, 'x'),
          (2, '2003-11-02', NULL, '2004-05-17 08:30:01', 0, -7, 20, '2003-11-02', '2004-05-17 08:30', 2, 1, 'y'),
          (3, NULL, '17:05', NULL, NULL, NULL, NULL, NULL, NULL, NULL, NULL, NULL);
        INSERT INTO u VALUES ('2003-11-02', 'a'), (NULL, 'b');""",
    Postgres: """
        CREATE TABLE t (id INTEGER PRIMARY KEY, d DATE UNIQUE CHECK (d > '2000-01-01'), at TIME, stamp TIMESTAMP UNIQUE
            CHECK (stamp <> '1999-12-31 23:59:59.5'), zone TIMESTAMPTZ CHECK (zone >= '2000-01-01 00:00+02'),
          flag BOOLEAN CHECK (flag = true OR flag IS NULL OR flag = false), whole NUMERIC(9, 0) CHECK (whole < 100),
          price DECIMAL(8,2), other DATE, mixed TIMESTAMP, part NUMERIC, n TEXT,
          CHECK (d <= other), CHECK (price >= whole), CHECK (d < stamp), CHECK (price < 99.5), CHECK (id < price));
        CREATE TABLE u (d DATE REFERENCES t (d), name TEXT);
        INSERT INTO t VALUES (1, '2004-05-17', '08:30', '2004-05-17 08:30:00', '2004-05-17 08:30:00+02', true, 7, 10.00,
            '2010-01-01', '2004-05-17', 0.5, 'x'),
          (2, '2003-11-02', NULL, '2004-05-17 08:30:01.25', NULL, false, -7, 20, '2003-11-02', 'infinity', 1, 'y'),
          (3, NULL, '17:05', NULL, NULL, NULL, NULL, NULL, NULL, NULL, NULL, NULL);
        INSERT INTO u VALUES ('2003-11-02', 'a'), (NULL, 'b');""",
}
TYPES_TOLD = {
    Sqlite: """\
classroom: t.d: DATE becomes TEXT: texts of ISO 8601, which compare by their bytes
classroom: t.at: TIME becomes TEXT: texts of ISO 8601, which compare by their bytes
classroom: t.stamp: TIMESTAMP becomes TEXT: texts of ISO 8601, which compare by their bytes
classroom: t.flag: BOOLEAN becomes INTEGER: 0 and 1
classroom: t.whole: NUMERIC(9, 0) becomes INTEGER: whole numbers
classroom: t.price: DECIMAL(8,2) becomes INTEGER: whole numbers
classroom: t.other: DATE becomes TEXT: texts of ISO 8601, which compare by their bytes
classroom: t.mixed: left out: the type TIMESTAMP is not read, since its values are not texts of ISO 8601 of one form
classroom: t.yes: left out: the type BOOLEAN is not read, since its values are not 0 and 1
classroom: t.part: left out: the type NUMERIC is not read, since its values are not whole
classroom: u.d: DATE becomes TEXT: texts of ISO 8601, which compare by their bytes
classroom: t: left out: CHECK (d <> n), which compares a text as a number
classroom: t: left out: CHECK (d > '2000'), which compares a text as a number
""",
    Postgres: """\
classroom: t.d: date becomes TEXT: texts of ISO 8601, which compare by their bytes
classroom: t.at: time without time zone becomes TEXT: texts of ISO 8601, which compare by their bytes
classroom: t.stamp: timestamp without time zone becomes TEXT: texts of ISO 8601, which compare by their bytes
classroom: t.zone: timestamp with time zone becomes TEXT: texts of ISO 8601, which compare by their bytes
classroom: t.flag: boolean becomes INTEGER: 0 and 1
classroom: t.whole: numeric(9,0) becomes INTEGER: whole numbers
classroom: t.price: numeric(8,2) becomes INTEGER: whole numbers
classroom: t.other: date becomes TEXT: texts of ISO 8601, which compare by their bytes
classroom: t.mixed: left out: the type timestamp without time zone is not read, since its values have no one form of ISO 8601
classroom: t.part: left out: the type numeric is not read, since its values are not whole numbers of 64 bits
classroom: u.d: date becomes TEXT: texts of ISO 8601, which compare by their bytes
classroom: t: left out: CHECK t_check2, which compares moments of different types
classroom: t: left out: CHECK t_price_check, which has the number 99.5, which is not whole
""",
}
TYPES_WRITTEN = {
    Sqlite: """\
CREATE TABLE t (
  id INTEGER,
  d TEXT,
  at TEXT,
  stamp TEXT,
  flag INTEGER,
  whole INTEGER,
  price INTEGER,
  other TEXT,
  n TEXT,
  PRIMARY KEY (id),
  UNIQUE (stamp),
  CHECK (d > '2000-01-01'),
  CHECK (flag IN (0, 1)),
  CHECK (whole < 100),
  CHECK (d <= other),
  CHECK (price >= whole)
);

CREATE TABLE u (
  d TEXT,
  name TEXT,
  FOREIGN KEY (d) REFERENCES t (d)
);
""",
    Postgres: """\
CREATE TABLE t (
  id INTEGER NOT NULL,
  d TEXT,
  at TEXT,
  stamp TEXT,
  zone TEXT,
  flag INTEGER,
  whole INTEGER,
  price INTEGER,
  other TEXT,
  n TEXT,
  PRIMARY KEY (id),
  UNIQUE (d),
  UNIQUE (stamp),
  CHECK (d <= other),
  CHECK (price >= whole),
  CHECK (id < price),
  CHECK (d > '2000-01-01'),
  CHECK (flag = 1 OR flag IS NULL OR flag = 0),
  CHECK (stamp <> '1999-12-31 23:59:59.500000'),
  CHECK (whole < 100),
  CHECK (zone >= '1999-12-31 22:00:00.000000+00')
);

CREATE TABLE u (
  d TEXT,
  name TEXT,
  FOREIGN KEY (d) REFERENCES t (d)
);
""",
}
TYPES_ROWS = {
    Sqlite: """\
id,d,at,stamp,flag,whole,price,other,n
1,2004-05-17,08:30,2004-05-17 08:30:00,1,7,10,2010-01-01,x
2,2003-11-02,,2004-05-17 08:30:01,0,-7,20,2003-11-02,y
3,,17:05,,,,,,
""",
    Postgres: """\
id,d,at,stamp,zone,flag,whole,price,other,n
1,2004-05-17,08:30:00.000000,2004-05-17 08:30:00.000000,2004-05-17 06:30:00.000000+00,1,7,10,2010-01-01,x
2,2003-11-02,,2004-05-17 08:30:01.250000,,0,-7,20,2003-11-02,y
3,,17:05:00.000000,,,,,,,
""",
}


def test_types(ratest: Path, product: Product, tmp_path: Path) -> None:
    product.make(tmp_path / "types", TYPES[type(product)])
    told = whole_answers(
        ratest,
        product,
        tmp_path,
        [
            "SELECT id FROM t WHERE d < '2004-01-01'",
            "SELECT a.id FROM t a, t b WHERE a.d > b.d",
            "SELECT id FROM t WHERE price >= 20 OR whole < 0",
            "SELECT name FROM u WHERE d IN (SELECT other FROM t)",
            "SELECT d FROM t EXCEPT SELECT d FROM u",
        ],
    )
    assert told == TYPES_TOLD[type(product)]
    texts = content(tmp_path / "whole folder")
    assert texts["schema.sql"] == TYPES_WRITTEN[type(product)]
    assert texts["t.csv"] == TYPES_ROWS[type(product)]


def cell(value: int | str | None) -> str:
    return literal(value)


def rows_text() -> str:
    """The rows: each pair of a value of `a` and one of `s`."""
    rows = []
    for number, (integer, text) in enumerate(pairs(INTEGERS, TEXTS)):
        values = {name: values[number % len(values)] for name, (_, values) in COLUMNS.items()}
        values.update(id=number, a=integer, s=text)
        rows.append("(" + ", ".join(map(cell, values.values())) + ")")
    return f"INSERT INTO rows VALUES {', '.join(rows)};"


def table_text(
    product: Product, name: str, condition: str = "", domain: tuple[str, str] = ("", "")
) -> str:
    byte = "" if isinstance(product, Sqlite) else ' COLLATE "C"'
    kinds = {column: kind.replace("{byte}", byte) for column, (kind, _) in COLUMNS.items()}
    kinds.update([domain] if domain[0] else [])
    columns = [f"{quoted(column)} {kind}" for column, kind in kinds.items()]
    return (
        "CREATE TABLE"
        f" {name} ({', '.join(columns + ([f'CHECK ({condition})'] if condition else []))});"
    )


Case = tuple[str, tuple[str, str], str, str]


def cases_of(product: Product) -> dict[str, Case]:
    """A table for each condition, and what is to be written of it."""
    is_sqlite = isinstance(product, Sqlite)
    cases: list[Case] = [
        (condition, ("", ""), "", written[0 if is_sqlite else -1] or condition)
        for condition, *written in CARRIED + (CARRIED_SQLITE if is_sqlite else CARRIED_POSTGRES)
    ]
    for number, (column, domain, written) in enumerate([] if is_sqlite else DOMAINS):
        cases.append(("", (column, f"d{number}"), f"CREATE DOMAIN d{number} AS {domain};", written))
    return {f"t{number}": case for number, case in enumerate(cases)}


def fill_text(product: Product, tables: dict[str, Case]) -> str:
    """Puts into each table the rows that it lets in."""
    if isinstance(product, Sqlite):
        return "".join(f"INSERT OR IGNORE INTO {table} SELECT * FROM rows;" for table in tables)
    return (
        "DO $$ DECLARE x record; BEGIN FOR x IN SELECT id FROM rows LOOP "
        + "".join(
            f"BEGIN INSERT INTO {table} SELECT * FROM rows WHERE id = x.id; EXCEPTION WHEN"
            " check_violation THEN END; "
            for table in tables
        )
        + "END LOOP; END $$"
    )


def ends_with(ratest: Path, status: int, folder: Path, query: str) -> None:
    """`ratest` ends with this status on a query, against one that answers nothing."""
    files = [folder / f"{number}.sql" for number in (1, 2)]
    for file, text in zip(files, (query, "SELECT id FROM one WHERE id <> id")):
        file.write_text(text, encoding="utf-8")
    ran = run(ratest, folder / "schema.sql", folder, *files)
    assert ran.returncode == status, f"{query}: {ran.stdout}{ran.stderr}"


def keeps_lawful(
    ratest: Path, folder: Path, name: str, schema: str, rows: str, let_in: set[int]
) -> None:
    """Of all rows `ratest` keeps those together that the database let in, and none of the
    others."""
    folder.mkdir()
    (folder / "schema.sql").write_text(schema + "CREATE TABLE one (id INTEGER);", encoding="utf-8")
    (folder / f"{name}.csv").write_bytes(rows.encode())
    (folder / "one.csv").write_text("id\n1\n")
    others = set(range(len(INTEGERS) * len(TEXTS))) - let_in
    parts = [f"EXISTS (SELECT * FROM {name} x WHERE x.id = {number})" for number in sorted(let_in)]
    # A query has at most 64 words SELECT.
    for start in range(0, len(parts), 60):
        ends_with(
            ratest, 1, folder, f"SELECT id FROM one WHERE {' AND '.join(parts[start:start + 60])}"
        )
    if others:
        ends_with(
            ratest,
            0,
            folder,
            f"SELECT id FROM {name} WHERE id IN ({', '.join(map(str, sorted(others)))})",
        )


def test_carried_conditions(ratest: Path, product: Product, tmp_path: Path) -> None:
    cases = cases_of(product)
    tables = "".join(
        before
        + table_text(
            product, name, condition.replace("own", name).replace("OWN", name.upper()), domain
        )
        for name, (condition, domain, before, _) in cases.items()
    )
    product.make(tmp_path / "checks", table_text(product, "rows") + rows_text() + tables)
    made = export(product, tmp_path / "exercise")
    assert made.stderr == "".join(
        f"classroom: {name}: left out: COLLATE; texts are compared by their bytes\n"
        for name, (condition, *_) in cases.items()
        if "COLLATE" in condition and isinstance(product, Sqlite)
    )
    filled = product.answer(fill_text(product, cases))
    assert filled.returncode == 0, filled.stderr
    answer = product.answer(
        " UNION ALL ".join(f"SELECT '{name}', id FROM {name}" for name in cases)
    )
    let_in: dict[str, set[int]] = {name: set() for name in cases}
    for line in answer.stdout.splitlines():
        let_in[line.split(",")[0]].add(int(line.split(",")[1]))
    texts = content(tmp_path / "exercise")
    schemas = dict(
        re.findall(
            r"^(?=CREATE TABLE (\w+))(.*?^\);\n)", texts["schema.sql"], re.MULTILINE | re.DOTALL
        )
    )
    for name, (condition, domain, _, written) in cases.items():
        assert re.findall(r"^  CHECK \((.*)\),?$", schemas[name], re.MULTILINE) == written.split(
            "; "
        ), (condition or domain)
        keeps_lawful(ratest, tmp_path / name, name, schemas[name], texts["rows.csv"], let_in[name])


def test_conditions_left_out(ratest: Path, product: Product, tmp_path: Path) -> None:
    is_sqlite = isinstance(product, Sqlite)
    parts, told = [], []
    for number, (condition, *reasons) in enumerate(
        LEFT + (LEFT_SQLITE if is_sqlite else LEFT_POSTGRES)
    ):
        why = reasons[0 if is_sqlite else -1]
        parts.append(f"CONSTRAINT n{number:02} CHECK ({condition})")
        told.append(
            f": left out: CHECK n{number:02}, which {why}"
            if why
            else f": left out with its column: CHECK n{number:02}"
        )
    text, first, last = OWN_LEFT[type(product)]
    product.make(tmp_path / "left", text.replace("{checks}", ", ".join(parts)))
    made = export(product, tmp_path / "exercise")
    assert made.stderr == "".join(f"classroom: t{note}\n" for note in [*first, *told, *last])
    assert "CHECK" not in content(tmp_path / "exercise")["schema.sql"]


def test_collations(product: Product, tmp_path: Path) -> None:
    if (
        isinstance(product, Postgres)
        and "1" not in product.answer("SELECT 1 FROM pg_collation WHERE collprovider = 'i'").stdout
    ):
        pytest.skip("a PostgreSQL without ICU")
    text, told, written = COLLATIONS[type(product)]
    product.make(tmp_path / "collations", text)
    made = export(product, tmp_path / "exercise")
    assert made.stderr == "".join(f"classroom: t{note}\n" for note in told)
    assert (
        re.findall(
            r"^  CHECK \((.*)\),?$", content(tmp_path / "exercise")["schema.sql"], re.MULTILINE
        )
        == written
    )


def test_padded_texts(product: Product, tmp_path: Path) -> None:
    """CHAR(n) of PostgreSQL has blanks at its end, which no comparison sees."""
    product.make(tmp_path / "padded", "CREATE TABLE t (c CHAR(4)); INSERT INTO t VALUES (' x');")
    export(product, tmp_path / "exercise")
    assert content(tmp_path / "exercise")["t.csv"] == "c\n x\n"


@pytest.mark.parametrize(
    "rows, statement, told",
    [
        ([None], "CREATE TABLE t (a INTEGER NOT NULL)", "t.a: NULL in a column that is NOT NULL"),
        ([7, 7], "CREATE UNIQUE INDEX i ON t (a)", "t: two rows have the same key (a)"),
    ],
)
def test_broken_rules(tmp_path: Path, rows: list[int | None], statement: str, told: str) -> None:
    """Rows that break a rule, which SQLite lets in only where its catalogue is written over."""
    path = tmp_path / "broken.db"
    database = sqlite3.connect(path)
    database.executescript(
        "CREATE TABLE t (a INTEGER); CREATE INDEX i ON t (a); PRAGMA writable_schema = ON"
    )
    database.executemany("INSERT INTO t VALUES (?)", [[row] for row in rows])
    database.execute(
        "UPDATE sqlite_master SET sql = ? WHERE name = ?",
        [statement, "t" if "TABLE" in statement else "i"],
    )
    database.commit()
    database.close()
    ran = classroom("import", path, tmp_path / "exercise")
    assert (ran.returncode, ran.stderr) == (1, f"classroom: {told}\n")


@pytest.mark.parametrize(
    "words", ["", "one", "--rows 0 a b", "--rows 2001 a b", "a b --rows", "--row 1 a b"]
)
def test_usage(words: str) -> None:
    ran = classroom("import", *words.split())
    assert (ran.returncode, ran.stdout) == (2, "") and ran.stderr.startswith("usage: classroom ")


@pytest.mark.parametrize(
    "source, told",
    [
        ("/nosuch.db", "there is no file /nosuch.db"),
        ("nosuch.sqlite3", "there is no file nosuch.sqlite3"),
        (str(TOP / "README.md"), "file is not a database"),
    ],
)
def test_no_database(tmp_path: Path, source: str, told: str) -> None:
    ran = classroom("import", source, tmp_path / "x")
    assert (ran.returncode, ran.stderr) == (1, f"classroom: {told}\n")


def test_no_server(tmp_path: Path) -> None:
    pytest.importorskip("psycopg")
    ran = classroom("import", "host=/nosuch", tmp_path / "x")
    assert ran.returncode == 1 and ran.stderr.count("\n") == 1 and "no such database" in ran.stderr
    ran = classroom("import", "nosuch", tmp_path / "x", env={"PGHOST": "/nosuch"})
    assert ran.stderr.startswith("classroom: no file nosuch, and no such database of PostgreSQL: ")


def test_without_psycopg(tmp_path: Path) -> None:
    """A library that is missing stops only what needs it, with the line that installs it."""
    (tmp_path / "psycopg.py").write_text("raise ImportError")
    words = [TOP / "classroom", "import"]
    ran = run(
        "/usr/bin/python3",
        "-c",
        (
            f"import sys; sys.path[:0] = [{str(tmp_path)!r}, {str(TOP / 'python')!r}]; from"
            " classroom.main import main;"
            f" sys.exit(main({['import', 'host=/x', str(tmp_path / 'x')]!r}))"
        ),
    )
    assert (ran.returncode, ran.stderr) == (
        1,
        "classroom: the library psycopg is not there: apt-get install python3-psycopg\n",
    ), words
    database = sqlite3.connect(tmp_path / "t.db")
    database.executescript("CREATE TABLE t (a INTEGER)")
    database.close()
    ran = run(
        "/usr/bin/python3",
        "-c",
        (
            f"import sys; sys.path[:0] = [{str(tmp_path)!r}, {str(TOP / 'python')!r}]; from"
            " classroom.main import main;"
            f" sys.exit(main({['import', str(tmp_path / 't.db'), str(tmp_path / 'y')]!r}))"
        ),
    )
    assert (ran.returncode, ran.stderr) == (0, "")
