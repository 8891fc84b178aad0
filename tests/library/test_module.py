"""The package `ratest`: what it takes, what it answers, and how that is shown."""
from __future__ import annotations

import html.parser
import inspect
import re
import sqlite3
import subprocess
import sys
from collections.abc import Callable
from pathlib import Path
from typing import Any

import pytest

import ratest
from ratest import draw

TOP = Path(__file__).resolve().parents[2]
BEERS = TOP / "examples/beers"
SECONDS = 120

# By hand: bars that serve a beer of an unknown price are in the first answer alone.
SCHEMA = "CREATE TABLE serves (bar TEXT, beer TEXT, price INTEGER, PRIMARY KEY (bar, beer))"
ROWS = [("Joe's", "Dixie", 3), ("Joe's", "Corona", None), ("Blue", "Dixie", 5)]
FIRST, SECOND = "SELECT bar, beer FROM serves", "SELECT bar, beer FROM serves WHERE price = price"
WITNESS = (
    "witness: 1\nserves 2: 'Joe''s', 'Corona', NULL\nonly query 1: 1\n  'Joe''s', 'Corona'\nonly"
    " query 2: 0\nboth: 0\n"
)


@pytest.fixture(autouse=True)
def library(shared: Path) -> Path:
    return shared


def database() -> sqlite3.Connection:
    made = sqlite3.connect(":memory:")
    made.execute("CREATE TABLE Serves (price INTEGER, beer TEXT, bar TEXT)")
    made.executemany("INSERT INTO Serves VALUES (?3, ?2, ?1)", ROWS)
    return made


def frame() -> Any:
    pandas = pytest.importorskip("pandas")
    return pandas.DataFrame(
        {"price": [3, None, 5], "bar": [row[0] for row in ROWS], "beer": [row[1] for row in ROWS]}
    )


def file(folder: Path) -> Path:
    path = folder / "rows.csv"
    path.write_text("bar,beer,price\nJoe's,Dixie,3\nJoe's,Corona,\nBlue,Dixie,5\n")
    return path


@pytest.mark.parametrize("kind", ["rows", "path", "text of a path", "sqlite3", "pandas"])
def test_tables(kind: str, tmp_path: Path) -> None:
    sources: dict[str, Callable[[], Any]] = {
        "rows": lambda: {"serves": ROWS},
        "path": lambda: {"serves": file(tmp_path)},
        "text of a path": lambda: {"serves": str(file(tmp_path))},
        "sqlite3": database,
        "pandas": lambda: {"serves": frame()},
    }
    answer = ratest.explain(SCHEMA, sources[kind](), FIRST, SECOND)
    assert isinstance(answer, ratest.Witness) and str(answer) == WITNESS
    assert answer.kept == {
        "serves": ratest.KeptRows(("bar", "beer", "price"), (2,), (("Joe's", "Corona", None),))
    }
    assert (answer.size, answer.only_first, answer.only_second, answer.both) == (
        1,
        (("Joe's", "Corona"),),
        (),
        (),
    )


@pytest.mark.parametrize(
    "tables, error",
    [
        ({"serve": ROWS}, ValueError),
        ({"serves": [("a", "b", True)]}, TypeError),
        ({"serves": [("a", "b", 1.5)]}, TypeError),
        ({"serves": [("a", "", 1)]}, ValueError),
        ({"serves": ["abc"]}, TypeError),
        ({"serves": [("a", b"b", 1)]}, TypeError),
        ({"serves": "/nowhere"}, OSError),
        (sqlite3.connect(":memory:"), ValueError),
    ],
)
def test_tables_that_are_none(tables: Any, error: type[Exception]) -> None:
    with pytest.raises(error):
        ratest.explain(SCHEMA, tables, FIRST, SECOND)


def test_columns_that_a_table_lacks() -> None:
    bare = sqlite3.connect(":memory:")
    bare.execute("CREATE TABLE serves (bar TEXT, beer TEXT)")
    with pytest.raises(ValueError, match="has no column price"):
        ratest.explain(SCHEMA, bare, FIRST, SECOND)
    with pytest.raises(ValueError, match="needs one column price"):
        ratest.explain(SCHEMA, {"serves": frame().drop(columns=["price"])}, FIRST, SECOND)


def test_agreement_and_refusals() -> None:
    tables = {"serves": ROWS}
    assert ratest.explain(SCHEMA, tables, FIRST, f"{FIRST} -- the same") == ratest.Agree()
    assert ratest.explain(SCHEMA, {}, FIRST, SECOND) == ratest.Agree()
    refused = ratest.explain(
        SCHEMA, tables, FIRST, "SELECT bar, beer\nFROM serves\nWHERE price = = 3"
    )
    assert refused == ratest.Refused("query 2", "syntax fault near byte 43", 3, 15)
    assert str(refused) == "query 2: syntax fault near byte 43 (line 3, column 15)"
    # A byte is not a character.
    refused = ratest.explain(
        SCHEMA, tables, "SELECT bar FROM serves WHERE bar = 'é' AND AND", SECOND
    )
    assert isinstance(refused, ratest.Refused) and (refused.line, refused.column) == (1, 44)
    refused = ratest.explain(SCHEMA, tables, FIRST, "SELECT drinker, beer FROM serves")
    assert refused == ratest.Refused("query 2", "unknown column: drinker", None, None)
    assert ratest.explain("CREATE TABLE", {}, FIRST, SECOND) == ratest.Refused(
        "schema", "syntax fault near byte 12", 1, 13
    )
    assert ratest.explain(SCHEMA, tables, FIRST, "SELECT bar FROM serves") == ratest.Refused(
        "queries", "numbers of columns differ", None, None
    )
    assert ratest.explain(SCHEMA, {"serves": [("a", "b", "c")]}, FIRST, SECOND) == ratest.Refused(
        "table serves", "record 2, column 3: not an integer", None, None
    )  # the header is record 1
    many = {"serves": [("a", str(number), 1) for number in range(2001)]}
    assert ratest.explain(SCHEMA, many, FIRST, SECOND) == ratest.Refused(
        "limit", "more than 2000 rows", None, None
    )
    wrongs: list[dict[str, Any]] = [{"conflicts": 0}, {"work": 32_000_001}]
    for wrong in wrongs:
        with pytest.raises(ValueError):
            ratest.explain(SCHEMA, tables, FIRST, SECOND, **wrong)


def test_a_budget_that_is_spent() -> None:
    folder = TOP / "examples/beers"
    tables = {path.stem: path for path in folder.glob("*.csv")}
    words = (folder / "schema.sql", tables, folder / "3/reference.sql", folder / "3/answers/c.sql")
    answers = [ratest.explain(*words, conflicts=budget) for budget in (1, 10_000_000)]
    assert isinstance(answers[0], ratest.Undecided) and answers[0].conflicts == 1
    assert "Undecided after 1 conflict" in answers[0]._repr_html_()
    assert isinstance(answers[1], ratest.Witness) and answers[1].size == 6
    assert answers[0].kept is None or sum(len(of.rows) for of in answers[0].kept.values()) >= 6


def test_paths_of_the_texts() -> None:
    tables = {path.stem: path for path in BEERS.glob("*.csv")}
    answer = ratest.explain(
        BEERS / "schema.sql", tables, BEERS / "3/reference.sql", BEERS / "3/answers/b.sql"
    )
    readme = (TOP / "README.md").read_text()
    assert (
        isinstance(answer, ratest.Witness)
        and f"```\n$ ./ratest examples/beers/schema.sql examples/beers examples/beers/3/reference.sql examples/beers/3/answers/b.sql\n{answer}```"
        in readme
    )
    with pytest.raises(FileNotFoundError):
        ratest.explain(BEERS / "none.sql", tables, FIRST, SECOND)


def test_why() -> None:
    tables = {"serves": ROWS}
    assert str(ratest.why(SCHEMA, tables, FIRST, SECOND, ("Joe's", "Corona"))) == WITNESS
    assert ratest.why(SCHEMA, tables, FIRST, SECOND, ("Joe's", "Dixie")) == ratest.Never()
    assert ratest.why(SCHEMA, tables, FIRST, SECOND, ("Joe's",)) == ratest.Refused(
        "row", "numbers of columns differ", None, None
    )


def test_grades() -> None:
    answers: dict[str, str] = {
        f"answer {number}": FIRST if number % 3 else SECOND for number in range(300)
    }
    answers["none"] = "SELECT"
    answers["too long"] = "SELECT bar, beer FROM serves" + " " * 5_000_000
    grades = ratest.grade(SCHEMA, {"serves": ROWS}, FIRST, answers)
    assert isinstance(grades, dict) and list(grades) == list(answers)
    assert grades["answer 1"] == ratest.Grade("agrees", None, "") and grades["answer 1"].agrees
    assert grades["answer 299"].agrees and grades["answer 297"] == ratest.Grade("differs", 1, "")
    assert grades["none"] == ratest.Grade("refused", None, "syntax fault near byte 6")
    assert grades["too long"] == ratest.Grade("limit", None, "too long")
    assert ratest.grade(SCHEMA, {"serves": ROWS}, "SELECT", answers) == ratest.Refused(
        "query 1", "syntax fault near byte 6", 1, 7
    )
    assert ratest.grade(SCHEMA, {"serves": ROWS}, FIRST, {}) == {}


def test_certificates() -> None:
    tables = {"serves": ROWS}
    made = ratest.prove(SCHEMA, tables, FIRST, SECOND)
    assert isinstance(made, ratest.Certificate) and made.text.startswith(
        "ratest certificate 1\nverdict witness 1\nkeep 1\n"
    )
    assert ratest.check(made, SCHEMA, tables, FIRST, SECOND) == ratest.Valid(1)
    assert ratest.check(made, SCHEMA, tables, FIRST, FIRST) == ratest.Rejected(
        "answers are the same"
    )
    assert ratest.check(ratest.Certificate("x"), SCHEMA, tables, FIRST, SECOND) == ratest.Rejected(
        "malformed at line 1"
    )
    same = ratest.prove(SCHEMA, tables, FIRST, FIRST)
    assert isinstance(same, ratest.Certificate) and ratest.check(
        same, SCHEMA, tables, FIRST, FIRST
    ) == ratest.Valid(None)
    assert ratest.prove(SCHEMA, tables, FIRST, "SELECT") == ratest.Refused(
        "query 2", "syntax fault near byte 6", 1, 7
    )
    assert ratest.check(made, SCHEMA, tables, "SELECT", FIRST) == ratest.Refused(
        "query 1", "syntax fault near byte 6", 1, 7
    )


def test_to_sql_is_the_witness_in_a_database() -> None:
    answer = ratest.explain(SCHEMA, {"serves": ROWS}, FIRST, SECOND)
    assert isinstance(answer, ratest.Witness)
    made = sqlite3.connect(":memory:")
    made.executescript(answer.to_sql())
    assert (
        made.execute(FIRST).fetchall() == [("Joe's", "Corona")]
        and made.execute(SECOND).fetchall() == []
    )


class Page(html.parser.HTMLParser):
    """Reads a page, and fails where its tags don't nest."""

    def __init__(self, text: str) -> None:
        super().__init__()
        self.open: list[str] = []
        self.cells: list[str] = []
        self.feed(text)
        self.close()
        assert not self.open

    def handle_starttag(self, tag: str, attributes: list[tuple[str, str | None]]) -> None:
        assert tag not in ("script", "link", "img", "iframe"), tag
        self.open.append(tag)
        if tag in ("td", "caption"):
            self.cells.append("")

    def handle_endtag(self, tag: str) -> None:
        assert self.open.pop() == tag

    def handle_data(self, text: str) -> None:
        if self.open and self.open[-1] in ("td", "caption"):
            self.cells[-1] += text


def test_a_notebook_shows_what_the_class_page_shows() -> None:
    answer = ratest.explain(SCHEMA, {"serves": ROWS}, FIRST, SECOND)
    assert isinstance(answer, ratest.Witness)
    text = answer._repr_html_()
    assert Page(text).cells == [
        "serves",
        "Joe's",
        "Corona",
        "NULL",
        "Query 1: 1 row",
        "Joe's",
        "Corona",
        "Query 2: 0 rows",
        "no rows",
    ]
    assert "The queries differ on 1 row, and on no fewer" in text and "These rows as SQL" in text
    assert draw.drawn(answer._drawing, "Query 1", "Query 2") in text


def test_no_library_is_said_at_the_call(tmp_path: Path) -> None:
    code = (
        "import ratest\ntry:\n    ratest.explain('CREATE TABLE t (a INT)', {}, 'SELECT a FROM t',"
        " 'SELECT a FROM t')\nexcept ratest.NoLibrary as error:\n    print(error)\n"
    )
    copied = tmp_path / "lib/python3/dist-packages/ratest"
    copied.mkdir(parents=True)
    for path in (TOP / "python/ratest").iterdir():
        if path.is_file():
            (copied / path.name).write_bytes(path.read_bytes())
    ran = subprocess.run(
        [sys.executable, "-c", code],
        env={"PYTHONPATH": str(copied.parent), "PYTHONDONTWRITEBYTECODE": "1"},
        capture_output=True,
        text=True,
        timeout=SECONDS,
    )
    assert (ran.returncode, ran.stdout, ran.stderr) == (
        0,
        "there is no libratest.so: tools/library makes it, and $LIBRATEST may name it\n",
        "",
    )


def test_the_reference(capsys: pytest.CaptureFixture[str]) -> None:
    """Its program prints what it shows, and its table names just the calls that there are."""
    chapter = (TOP / "docs/REFERENCE.md").read_text(encoding="utf-8").split("\n## Library")[1]
    code, shown = re.findall(r"```(?:python)?\n(.*?)```", chapter, re.DOTALL)[:2]
    exec(code, {})
    assert capsys.readouterr().out == shown
    calls = dict(re.findall(r"^\| `(\w+)\((.*?)\)`", chapter, re.MULTILINE))
    assert set(calls) == {name for name in ratest.__all__ if name.islower()}
    for name, words in calls.items():
        assert list(inspect.signature(getattr(ratest, name)).parameters)[
            : words.count(",") + 1
        ] == words.split(", ")
