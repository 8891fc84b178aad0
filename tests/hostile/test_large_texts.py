"""Texts of up to four megabytes, and certificates of up to 64, that are one long list or one deep
nest. Each call ends within 20 seconds of a processor, 2 gigabytes and a stack of 8 megabytes, with
the status that the text deserves."""
from __future__ import annotations

from dataclasses import dataclass, field
from pathlib import Path
from typing import Callable

import pytest
from limited import ended

Text = Callable[[], str]
MEGABYTES_64 = 67_108_864


def numbered(count: int, word: str, after: str, between: str) -> str:
    return between.join(f"{word}{at}{after}" for at in range(1, count + 1))


def repeated(count: int, word: str, between: str = "") -> str:
    return between.join([word] * count)


def doubled_stars(depth: int) -> str:
    """So many selects in one another, each with two stars of the one below."""
    return repeated(depth, "SELECT s.*, s.* FROM (") + "SELECT a FROM t" + repeated(depth, ") s")


def union_of(items: str) -> str:
    return f"SELECT {items} FROM t UNION SELECT {items} FROM t"


@dataclass(frozen=True)
class Case:
    name: str
    status: int
    # By the name of a file: schema, t.csv, 1, 2 or others.
    files: dict[str, Text] = field(default_factory=dict)


def first(name: str, status: int, text: Text) -> Case:
    return Case(name, status, {"1": text})


def both(name: str, status: int, text: Text) -> Case:
    return Case(name, status, {"1": text, "2": text})


SCHEMA = "CREATE TABLE t (a INTEGER);\n"
TABLE = "a\n1\n2\n"
QUERY = "SELECT a FROM t\n"
WHERE = "SELECT a FROM t WHERE "
# A table without rows beside one of many, for conditions that are asked for each row around them.
MANY = {
    "schema": lambda: "CREATE TABLE t (a INTEGER); CREATE TABLE none (b INTEGER);",
    "none.csv": lambda: "b\n",
    "t.csv": lambda: "a\n" + numbered(1990, "", "", "\n") + "\n",
}

QUERIES = [
    both("columns", 0, lambda: f"SELECT {repeated(2_000_000, 'a', ',')} FROM t"),
    both("columns of a union", 0, lambda: union_of(repeated(400_000, "a", ","))),
    first("columns of one union", 3, lambda: union_of(repeated(400_000, "a", ","))),
    first("members of IN", 1, lambda: f"{WHERE}a IN ({repeated(2_000_000, '1', ',')})"),
    first("conditions of AND", 0, lambda: WHERE + repeated(450_000, "a=a", " AND ")),
    first("conditions of OR", 0, lambda: WHERE + repeated(450_000, "a=a", " OR ")),
    first("unions", 3, lambda: repeated(180_000, "SELECT a FROM t", " UNION ")),
    first("sums", 0, lambda: f"{WHERE}{repeated(2_000_000, 'a', '+')} > 0 OR a = a"),
    first("sources", 5, lambda: "SELECT 1 FROM " + numbered(400_000, "t x", "", ",")),
    first("minus signs", 0, lambda: f"{WHERE}{repeated(8, '-', ' ')} a = a"),
    first("nots", 0, lambda: f"{WHERE}{repeated(8, 'NOT', ' ')} a = a"),
    first("nots too many", 3, lambda: f"{WHERE}{repeated(9, 'NOT', ' ')} a = a"),
    first("parentheses", 0, lambda: f"{repeated(64, '(')}SELECT a FROM t{repeated(64, ')')}"),
    first("parentheses too many", 3, lambda: repeated(4_000_000, "(")),
    both("doubled stars", 0, lambda: doubled_stars(16)),
    both("stars past all memory", 7, lambda: doubled_stars(62)),
    first("one text", 3, lambda: "SELECT '" + repeated(4_000_000, "x")),
    first("a text past the limit", 5, lambda: repeated(4_194_305, " ")),
    Case(
        "tables", 5, {"schema": lambda: numbered(120_000, "CREATE TABLE t", " (a INTEGER);", " ")}
    ),
    Case(
        "columns of a table",
        5,
        {"schema": lambda: f"CREATE TABLE t ({numbered(200_000, 'a', ' INTEGER', ',')});"},
    ),
    Case(
        "references to a wide key",
        3,
        {
            "schema": lambda: (
                f"CREATE TABLE p ({numbered(60_000, 'a', ' INTEGER', ',')}, PRIMARY KEY"
                f" ({numbered(60_000, 'a', '', ',')})); CREATE TABLE q (b INTEGER,"
                f" {repeated(60_000, 'FOREIGN KEY (b) REFERENCES p', ',')});"
            )
        },
    ),
    Case(
        "rules of a table",
        5,
        {"schema": lambda: f"CREATE TABLE t (a INTEGER, {repeated(300_000, 'UNIQUE (a)', ',')});"},
    ),
    Case("one field", 3, {"t.csv": lambda: "a\n" + repeated(4_000_000, "1")}),
    Case("one record", 3, {"t.csv": lambda: "a\n" + repeated(2_000_000, "1", ",")}),
    Case("empty lines", 0, {"t.csv": lambda: "a\n" + repeated(4_000_000, "", "\n")}),
    Case(
        "conditions over no rows",
        0,
        {
            **MANY,
            "1": lambda: (
                f"{WHERE}NOT EXISTS (SELECT b FROM none WHERE"
                f" {repeated(200_000, 'b = t.a', ' AND ')})"
            ),
        },
    ),
    Case(
        "conditions beside no rows",
        0,
        {
            **MANY,
            "1": lambda: (
                f"{WHERE}NOT EXISTS (SELECT b FROM t x, none WHERE"
                f" {repeated(100_000, 'b = t.a AND x.a = b', ' AND ')})"
            ),
        },
    ),
]

# Against the table itself.
ALGEBRA = [
    first("tests", 0, lambda: f"select(t, {repeated(400_000, 'a = a', ' AND ')})"),
    first(
        "tests that no row meets", 1, lambda: f"select(t, {repeated(400_000, 'a < a', ' AND ')})"
    ),
    first("columns of a projection", 3, lambda: f"project(t, ({repeated(2_000_000, 'a', ',')}))"),
    first("names of a renaming", 3, lambda: f"rename(t, ({numbered(400_000, 'a', '', ',')}))"),
    first(
        "operators in one another",
        3,
        lambda: repeated(300_000, "semi(") + "t" + repeated(300_000, ", t)"),
    ),
    first("operators at the limit", 0, lambda: repeated(64, "semi(") + "t" + repeated(64, ", t)")),
    first("divisions too many", 3, lambda: repeated(9, "divide(") + "t" + repeated(9, ", t)")),
    first("parentheses", 3, lambda: repeated(4_000_000, "(")),
    first("a name", 3, lambda: repeated(4_000_000, "x")),
    first("a comment without an end", 3, lambda: "/*" + repeated(4_000_000, "x")),
    first("comments", 0, lambda: repeated(1_000_000, "/**/") + "t"),
    first("a number", 3, lambda: f"select(t, a = {repeated(4_000_000, '9')})"),
    first("a text past the limit", 5, lambda: repeated(4_194_305, " ")),
]

# The reference is the query; a list is judged before what it names.
LISTS = [
    Case("empty lines", 0, {"list": lambda: repeated(4_000_000, "\n")}),
    Case("paths too many", 5, {"list": lambda: repeated(2_000_000, "x", "\n")}),
    Case("a path of four megabytes", 6, {"list": lambda: repeated(4_000_000, "x")}),
    Case("no UTF-8 at its end", 3, {"list": lambda: repeated(2_000_000, "\n") + "\udcff"}),
    Case("past the limit", 5, {"list": lambda: repeated(4_194_305, "\n")}),
]

# The cells of a row that is asked for, whose query has one column. Linux takes no argument of over
# 128 KiB.
ROWS = [
    ("a row that is no answer", 0, lambda: "7"),
    ("a row of the answer", 1, lambda: "1"),
    ("cells", 3, lambda: repeated(60_000, "1", ",")),
    ("a number", 3, lambda: repeated(120_000, "9")),
    ("a text", 3, lambda: "'" + repeated(120_000, "x") + "'"),
    ("a text without an end", 3, lambda: "'" + repeated(120_000, "x")),
    ("signs", 3, lambda: repeated(60_000, "-", " ") + "1"),
]

# Behind the certificate's first lines, whose claim and number of lines are right.
STEP = "d +0 ; 0\n"
CERTIFICATES = [
    ("one line", 3, lambda: repeated(MEGABYTES_64 - 100, "x")),
    ("literals of one step", 8, lambda: "d " + repeated(9_000_000, "+0 ") + "; 0\nend\n"),
    ("hints of one step", 8, lambda: "d +0 ;" + repeated(20_000_000, " 0") + "\nend\n"),
    ("a million steps", 8, lambda: repeated(1_000_000, STEP) + "end\n"),
    ("a number past a word", 3, lambda: f"d +{repeated(50_000_000, '9')} ; 0\nend\n"),
    ("a variable of 2,000,000,000", 8, lambda: "d +2000000000 ;\nend\n"),
    ("a variable near 2^62", 8, lambda: "d +4611686018427387903 ;\nend\n"),
    ("past the limit", 5, lambda: repeated(MEGABYTES_64, " ")),
]


def written(folder: Path, files: dict[str, Text]) -> list[str]:
    """The four plain words of a command over these files."""
    usual: dict[str, Text] = {
        "schema": lambda: SCHEMA,
        "t.csv": lambda: TABLE,
        "1": lambda: QUERY,
        "2": lambda: QUERY,
    }
    for name, text in {**usual, **files}.items():
        (folder / name).write_bytes(text().encode(errors="surrogateescape"))
    return [str(folder / "schema"), str(folder), str(folder / "1"), str(folder / "2")]


def named(case: Case) -> str:
    return case.name


@pytest.mark.parametrize("case", QUERIES, ids=named)
def test_queries_schemas_and_tables(case: Case, ratest: Path, tmp_path: Path) -> None:
    assert ended([ratest, *written(tmp_path, case.files)]).status == case.status


@pytest.mark.parametrize("case", ALGEBRA, ids=named)
def test_algebra_texts(case: Case, ratest_plus: Path, tmp_path: Path) -> None:
    words = written(tmp_path, {"2": lambda: "t", **case.files})
    assert ended([ratest_plus, "ra", *words]).status == case.status


@pytest.mark.parametrize("case", LISTS, ids=named)
def test_lists(case: Case, ratest_plus: Path, tmp_path: Path) -> None:
    words = written(tmp_path, case.files)
    assert ended([ratest_plus, "grade", *words[:3], tmp_path / "list"]).status == case.status


@pytest.mark.parametrize("name, status, text", ROWS, ids=[name for name, _, _ in ROWS])
def test_rows(name: str, status: int, text: Text, ratest_plus: Path, tmp_path: Path) -> None:
    words = written(tmp_path, {"2": lambda: f"{WHERE}a > 1"})
    assert ended([ratest_plus, "row", text(), *words]).status == status


@pytest.mark.parametrize(
    "name, status, text", CERTIFICATES, ids=[name for name, _, _ in CERTIFICATES]
)
def test_certificates(
    name: str, status: int, text: Text, ratest_plus: Path, tmp_path: Path
) -> None:
    words = written(tmp_path, {"2": lambda: f"{WHERE}a > 1"})
    right = ended([ratest_plus, "prove", *words]).out.decode()
    head = right[: right.index("\nd ") + 1]
    (tmp_path / "certificate").write_text(head + text())
    assert ended([ratest_plus, "check", tmp_path / "certificate", *words]).status == status
