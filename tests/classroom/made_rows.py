"""Databases of any size with tasks over them: a school in SQLite, and orders as those of TPC-H in
PostgreSQL. The same rows for each seed."""
from __future__ import annotations

import random
from collections.abc import Iterator
from pathlib import Path

SCHOOL = """
CREATE TABLE teacher (id INTEGER PRIMARY KEY, name TEXT NOT NULL, dept TEXT);
CREATE TABLE course (id INTEGER PRIMARY KEY, title TEXT, dept TEXT NOT NULL, credits INTEGER CHECK (credits > 0),
  teacher INTEGER REFERENCES teacher);
CREATE TABLE student (id INTEGER PRIMARY KEY, name TEXT NOT NULL, major TEXT, year INTEGER CHECK (year BETWEEN 1 AND 5));
CREATE TABLE enrol (student INTEGER REFERENCES student, course INTEGER REFERENCES course,
  grade INTEGER CHECK (grade BETWEEN 1 AND 6), PRIMARY KEY (student, course));
CREATE TABLE requires (course INTEGER REFERENCES course, needs INTEGER REFERENCES course, PRIMARY KEY (course, needs));
"""
SCHOOL_TASKS = {
    "1": (
        "SELECT s.name FROM student s WHERE NOT EXISTS (SELECT * FROM enrol e WHERE e.student ="
        " s.id AND e.grade > 4)"
    ),
    "2": (
        "SELECT s.name FROM student s JOIN enrol e ON e.student = s.id JOIN course c ON e.course ="
        " c.id WHERE c.dept = 'CS' AND e.grade >= 5"
    ),
    "3": "SELECT id FROM course EXCEPT SELECT course FROM enrol WHERE grade IS NOT NULL",
    "4": (
        "SELECT t.name FROM teacher t WHERE t.id IN (SELECT c.teacher FROM course c WHERE c.dept <>"
        " t.dept)"
    ),
}
SCHOOL_ANSWERS = {
    "1": {
        "forgets": "SELECT name FROM student WHERE id NOT IN (SELECT student FROM enrol)",
        "right": (
            "SELECT name FROM student WHERE id NOT IN (SELECT student FROM enrol WHERE grade > 4)"
        ),
        "typing": "SELECT nmae FROM student",
    }
}

ORDERS = """
CREATE TABLE nation (n_nationkey INTEGER PRIMARY KEY, n_name VARCHAR(25) COLLATE "C" NOT NULL);
CREATE TABLE customer (c_custkey INTEGER PRIMARY KEY, c_name VARCHAR(25) COLLATE "C" NOT NULL,
  c_nationkey INTEGER NOT NULL REFERENCES nation, c_acctbal NUMERIC);
CREATE TABLE part (p_partkey INTEGER PRIMARY KEY, p_name VARCHAR(55) COLLATE "C", p_size INTEGER CHECK (p_size > 0));
CREATE TABLE orders (o_orderkey INTEGER PRIMARY KEY, o_custkey INTEGER NOT NULL REFERENCES customer,
  o_orderstatus CHAR(1) COLLATE "C", o_orderdate DATE);
CREATE TABLE lineitem (l_orderkey INTEGER REFERENCES orders, l_linenumber INTEGER, l_partkey INTEGER REFERENCES part,
  l_quantity INTEGER CHECK (l_quantity > 0), l_returnflag CHAR(1) COLLATE "C", l_shipdate DATE, l_commitdate DATE,
  PRIMARY KEY (l_orderkey, l_linenumber));
"""
ORDERS_TASKS = {
    "1": (
        "SELECT c.c_name FROM customer c WHERE NOT EXISTS (SELECT * FROM orders o WHERE o.o_custkey"
        " = c.c_custkey)"
    ),
    "2": (
        "SELECT o.o_orderkey FROM orders o WHERE o.o_orderdate >= '1994-01-01' AND EXISTS (SELECT *"
        " FROM lineitem l WHERE l.l_orderkey = o.o_orderkey AND l.l_commitdate < l.l_shipdate)"
    ),
    "3": (
        "SELECT p_partkey FROM part WHERE p_size > 10 EXCEPT SELECT l_partkey FROM lineitem WHERE"
        " l_returnflag = 'R'"
    ),
    "4": (
        "SELECT n.n_name FROM nation n, customer c WHERE n.n_nationkey = c.c_nationkey AND"
        " c.c_acctbal > 100"
    ),
}


def text(value: int | str | None) -> str:
    return (
        "NULL"
        if value is None
        else str(value)
        if isinstance(value, int)
        else "'" + value.replace("'", "''") + "'"
    )


def inserts(table: str, rows: list[tuple[int | str | None, ...]]) -> Iterator[str]:
    for start in range(0, len(rows), 500):
        yield f"INSERT INTO {table} VALUES " + ", ".join(
            f"({', '.join(map(text, row))})" for row in rows[start : start + 500]
        ) + ";\n"


def school(count: int, seed: int = 46) -> str:
    """The statements of a school with so many rows in all."""
    chosen = random.Random(seed)
    teachers, courses, students, needs = (max(4, count // part) for part in (200, 100, 8, 200))
    depts = ("CS", "ECON", "MATH", "ART", None)
    rows: dict[str, list[tuple[int | str | None, ...]]] = {
        "teacher": [
            (at, f"Teacher {at % (teachers - 1)}", chosen.choice(depts)) for at in range(teachers)
        ],
        "course": [
            (
                at,
                f"Course {at}",
                chosen.choice(depts[:4]),
                chosen.choice((2, 3, 4, None)),
                chosen.choice((*range(teachers), None)),
            )
            for at in range(courses)
        ],
        "student": [
            (at, f"O'Student {at}", chosen.choice(depts), chosen.choice((1, 2, 3, 4, 5, None)))
            for at in range(students)
        ],
        "requires": [
            pair
            for pair in {
                (chosen.randrange(courses), chosen.randrange(courses)): 0 for _ in range(needs)
            }
        ],
    }
    pairs: dict[tuple[int, int], None] = {}
    while len(pairs) < count - sum(map(len, rows.values())):
        pairs[chosen.randrange(students), chosen.randrange(courses)] = None
    rows["enrol"] = [(*pair, chosen.choice((1, 2, 3, 4, 5, 6, None))) for pair in pairs]
    return (
        SCHOOL
        + "BEGIN;\n"
        + "".join(
            line
            for table in ("teacher", "course", "student", "enrol", "requires")
            for line in inserts(table, rows[table])
        )
        + "COMMIT;\n"
    )


def orders(count: int, seed: int = 46) -> str:
    """The statements of customers, parts, orders and their lines with so many rows in all."""
    chosen = random.Random(seed)
    customers, parts, made = (max(5, count // part) for part in (20, 20, 5))

    def day() -> str:
        return f"{chosen.randrange(1992, 1999)}-{chosen.randrange(1, 13):02}-{chosen.randrange(1, 29):02}"

    rows: dict[str, list[tuple[int | str | None, ...]]] = {
        "nation": [(at, f"NATION {at}") for at in range(25)],
        "customer": [
            (at, f"Customer {at}", chosen.randrange(25), chosen.choice((0, 100, 101, 7000, None)))
            for at in range(customers)
        ],
        "part": [
            (at, f"part {at}", chosen.choice((1, 9, 10, 11, 12, 50, None))) for at in range(parts)
        ],
        "orders": [
            (
                at,
                chosen.randrange(customers),
                chosen.choice("FOP"),
                chosen.choice((day(), "1994-01-01", None)),
            )
            for at in range(made)
        ],
    }
    lines = count - sum(map(len, rows.values()))
    rows["lineitem"] = []
    for at in range(lines):
        shipped = chosen.choice((day(), None))
        rows["lineitem"].append(
            (
                at % made,
                at // made,
                chosen.choice((*range(parts), None)),
                chosen.randrange(1, 51),
                chosen.choice(("R", "A", "N", None)),
                shipped,
                chosen.choice((day(), shipped)),
            )
        )
    return ORDERS + "".join(
        line
        for table in ("nation", "customer", "part", "orders", "lineitem")
        for line in inserts(table, rows[table])
    )


def tasks(folder: Path, references: dict[str, str], answers: dict[str, dict[str, str]]) -> Path:
    """A folder with tasks and without rows."""
    for task, reference in references.items():
        (folder / task / "answers").mkdir(parents=True)
        (folder / task / "reference.sql").write_text(reference)
        for name, answer in answers.get(task, {}).items():
            (folder / task / "answers" / f"{name}.sql").write_text(answer)
    return folder
