"""The page of a class: over a class made here with odd names and texts and every kind of grade,
over examples/beers, in a real browser, and its rows as SQL in real databases."""
from __future__ import annotations

import html.parser
import os
import re
import shutil
import sqlite3
from pathlib import Path
from typing import Any

import made_class
import odd_class
import products
import pytest
from odd_class import KINDS, SUMMARY, TABLES
from products import TOP, classroom

from classroom.views import draw
from classroom.exercise import exercise
from classroom.process.limits import Ran
from classroom.verdict.witness import Agree, Died, Kept, Refused, Undecided, Witness, read

VOID = ("meta", "link", "input")
ATTRIBUTES = (
    "lang",
    "charset",
    "name",
    "content",
    "rel",
    "href",
    "id",
    "class",
    "scope",
    "type",
    "checked",
    "autocomplete",
    "tabindex",
    "title",
    "aria-label",
)


class Page(html.parser.HTMLParser):
    """Reads a page, and fails where its tags don't nest or it names anything outside of itself."""

    def __init__(self, text: str) -> None:
        super().__init__()
        self.open: list[str] = []
        self.ids: list[str] = []
        self.links: list[str] = []
        self.levels: list[int] = []
        self.tables: dict[str, list[list[list[str]]]] = {}
        self.grades: dict[str, str] = {}
        self.counts: list[list[str]] = []
        self.codes: list[str] = []
        self.groups: list[str] = []
        self.title = self.held = self.label = self.heading = self.kind = self.caption = ""
        self.feed(text)
        self.close()
        assert not self.open, f"left open: {self.open}"

    def handle_starttag(self, tag: str, attributes: list[tuple[str, str | None]]) -> None:
        names = dict(attributes)
        assert len(names) == len(attributes), f"attribute twice in {tag}"
        assert tag not in ("script", "iframe", "img", "object", "embed", "base"), tag
        for name in names:
            assert name in ATTRIBUTES, (tag, name)
        if names.get("id"):
            self.ids.append(str(names["id"]))
        if names.get("href"):
            self.links.append(str(names["href"]))
        if re.fullmatch("h[1-6]", tag):
            self.levels.append(int(tag[1]))
        if tag not in VOID:
            self.open.append(tag)
        if tag in ("h3", "h4", "caption", "code", "th", "td", "title"):
            self.held = self.label = ""
        self.label = str(names.get("aria-label") or self.label)
        if tag == "tr":
            self.row: list[str] = []
        if tag == "table":
            self.rows: list[list[str]] = []
            self.caption, self.kind = "", str(names["class"])

    def handle_data(self, data: str) -> None:
        self.held += data

    def handle_endtag(self, tag: str) -> None:
        assert self.open and self.open.pop() == tag, f"{tag} is closed where it isn't open"
        if tag == "title":
            self.title = self.held
        elif tag == "h3":
            self.groups.append(self.held)
        elif tag == "h4":
            self.heading = self.held
        elif tag == "caption":
            self.caption = self.held
        elif tag == "code":
            self.codes.append(self.held)
        elif tag in ("th", "td"):
            # A mark is its points, and reads as these with the verdict.
            self.row.append(self.label or self.held)
        elif tag == "tr":
            self.rows.append(self.row)
        elif tag == "table" and self.caption:
            self.tables.setdefault(f"{self.heading}: {self.caption}", []).append(self.rows)
        elif tag == "table" and self.kind == "matrix":
            tasks = self.rows[0][1:-1]
            self.grades = {
                (f"{task}/{row[0]}" if len(tasks) > 1 else row[0]): mark.partition(": ")[2]
                for row in self.rows[1:-3]
                for task, mark in zip(tasks, row[1:-1])
                if mark != "\u2013"
            }
        elif tag == "table":
            self.counts = self.rows


def checked(text: str) -> Page:
    page = Page(text)
    assert not re.search(r"<script|http|url\(|@import", text, re.IGNORECASE)
    assert text.startswith('<!DOCTYPE html>\n<html lang="en">')
    assert '<meta name="viewport"' in text
    assert len(page.ids) == len(set(page.ids)), "id twice"
    for link in page.links:
        assert link == "data:," or (link[0] == "#" and link[1:] in page.ids), link
    assert page.levels[0] == 1 and page.levels.count(1) == 1
    for above, below in zip(page.levels, page.levels[1:]):
        assert below <= above + 1, "a level of headings is left out"
    return page


@pytest.fixture(scope="module")
def odd(tmp_path_factory: pytest.TempPathFactory) -> Path:
    pytest.importorskip("jinja2")
    folder = tmp_path_factory.mktemp("odd") / "odd"
    program = odd_class.make(folder)
    ran = classroom("grade", "--only-proved", folder, env={**os.environ, "RATEST": str(program)})
    assert ran.returncode == 1 and ran.stdout.splitlines()[0] == SUMMARY, ran.stderr
    return folder


def test_odd_class(odd: Path) -> None:
    page = checked((odd / "results/teacher.html").read_text())
    assert page.title == f"odd, {SUMMARY}"
    assert page.grades == KINDS
    assert list(page.grades)[:2] == ["9 spent", "10 agrees"]
    for caption, rows in TABLES.items():
        assert rows in page.tables[caption], caption
    assert len(page.tables) == len(TABLES)
    # The line end that a query ends with is dropped, a line's end of two characters becomes one,
    # and characters that a page may not hold are shown as pictures.
    assert page.codes[0] == odd_class.REFERENCE[:-1]
    shown = odd_class.QUERY.replace("\r\n", "\n").replace("\r", "\u240d").replace("\x01", "\u2401")
    assert sum(code.startswith(shown) for code in page.codes) == len(KINDS)
    for name in "cut", "longer", "wide":
        assert odd_class.PRINTED[name][0].strip() in page.codes, name


def test_example(ratest: Path, graded: Path) -> None:
    """The page in the repository is what is made today."""
    text = (graded / "results/teacher.html").read_text()
    page = checked(text)
    assert page.title == "beers, 15 answers: 15 differ"
    assert page.counts == [["Task", "differs", "answers"]] + [[task, "3", "3"] for task in "12345"]
    assert [["only here", "Joe's"]] in page.tables["Answers on these rows: Answer: 1 row"]
    assert page.grades["3/b"] == "differs on 5 rows"
    assert text == (TOP / "examples/beers/teacher.html").read_text()


def test_groups(ratest: Path, tmp_path: Path) -> None:
    """The same witness once, with the answers that share it, the most frequent first."""
    made_class.make(tmp_path / "class", 100)
    assert classroom("grade", "--only-proved", tmp_path / "class").stderr == made_class.left(
        tmp_path / "class"
    )
    page = checked((tmp_path / "class/results/teacher.html").read_text())
    assert sum(int(row[-1]) for row in page.counts[1:]) == 100
    differing = [
        [
            int(found[1])
            for head in part
            if (found := re.search(r"^differs on .* ([0-9]+) answers?$", head))
        ]
        for part in split(page.groups)
    ]
    assert all(sizes == sorted(sizes, reverse=True) for sizes in differing)
    assert len(page.grades) == 100 and 5 < len(page.groups) < 50


def split(groups: list[str]) -> list[list[str]]:
    """The headings of the groups of each task, of which only the last one agrees."""
    parts: list[list[str]] = [[]]
    for head in groups:
        parts[-1].append(head)
        if head.startswith("agrees"):
            parts.append([])
    return parts


def test_without_reference(graded: Path, tmp_path: Path) -> None:
    page = tmp_path / "students.html"
    ran = classroom("page", graded, "--for", "students", "--output", page)
    assert (ran.returncode, ran.stdout, ran.stderr) == (0, "", "")
    text = page.read_text()
    checked(text)
    for task in "12345":
        for line in (graded / task / "reference.sql").read_text().splitlines():
            assert draw.environment().from_string("{{ line }}").render(
                line=line
            ) not in text or any(
                line in answer.read_text() for answer in (graded / task / "answers").iterdir()
            ), line


def test_a_page_for_students(graded: Path, tmp_path: Path) -> None:
    """Neither points nor names, unless the teacher wants names; no table of students."""
    text = (graded / "results/students.html").read_text()
    page = checked(text)
    assert page.counts and not page.grades and "class/marks.csv" not in text
    assert ">points<" not in text and "Reference<" not in text
    assert not re.search(r'class="names"', text)
    named = tmp_path / "named.html"
    words = ("--for", "students", "--names", "--output", named)
    assert classroom("page", graded, *words).returncode == 0
    assert checked(named.read_text()).groups == page.groups
    assert re.search(r'<p class="names">a, ', named.read_text())
    wrong: list[tuple[str | Path, ...]] = [("--output", named), ("--for", "teacher")]
    for one in wrong:
        ran = classroom("page", graded, *one)
        assert ran.returncode == 1 and "--output and --for are wanted together" in ran.stderr
    for gone in ("--no-reference", "--no-names"):
        ran = classroom("page", graded, gone)
        assert ran.returncode == 1 and f"{graded}/results/students.html has neither" in ran.stderr
        assert len(ran.stderr.splitlines()) == 1


def test_the_old_page_goes(graded: Path, tmp_path: Path) -> None:
    """It has references, and would be of another grading."""
    shutil.copytree(graded, tmp_path / "class")
    old = tmp_path / "class/results/page.html"
    old.write_text("of an earlier version")
    ran = classroom("page", tmp_path / "class")
    assert (ran.returncode, ran.stderr) == (
        0,
        f"classroom: {old} is removed: the pages are teacher.html and students.html now\n",
    )
    assert not old.exists()


def test_the_question_stands_above_the_answers(graded: Path, tmp_path: Path) -> None:
    shutil.copytree(graded, tmp_path / "class")
    (tmp_path / "class/1/question.txt").write_text("Which **bars** are <there>?")
    assert classroom("page", tmp_path / "class").returncode == 0
    assert classroom("feedback", tmp_path / "class").returncode == 0
    pages = [tmp_path / "class/results" / f"{name}.html" for name in ("teacher", "students")]
    for page in (*pages, *(tmp_path / "class/results/feedback").glob("*.html")):
        text = page.read_text()
        assert "Which <strong>bars</strong> are &lt;there&gt;?" in text, page


def test_page_is_made_again(graded: Path) -> None:
    page = graded / "results/teacher.html"
    text = page.read_bytes()
    page.unlink()
    assert classroom("page", graded).returncode == 0
    assert page.read_bytes() == text


@pytest.mark.parametrize(
    "spoil, told",
    [
        (
            lambda folder: shutil.rmtree(folder / "results"),
            "{folder} is not graded: classroom grade does that",
        ),
        (
            lambda folder: (folder / "3/answers/b.sql").write_text("SELECT"),
            "task 3: the answer b has changed since it was graded: classroom grade grades it anew",
        ),
        (
            lambda folder: (folder / "3/answers/d.sql").write_text("SELECT"),
            "task 3: the answer d has changed since it was graded: classroom grade grades it anew",
        ),
        (
            lambda folder: (folder / "3/reference.sql").write_text("SELECT"),
            "task 3: reference.sql has changed since it was graded: classroom grade grades it anew",
        ),
        (
            lambda folder: (folder / "bar.csv").write_text("name,city\n"),
            (
                "{folder}: the schema or a row has changed since it was graded: classroom grade"
                " grades it anew"
            ),
        ),
    ],
)
def test_refusals(graded: Path, spoil: Any, told: str) -> None:
    spoil(graded)
    ran = classroom("page", graded)
    assert (ran.returncode, ran.stdout, ran.stderr) == (
        1,
        "",
        f"classroom: {told.format(folder=graded)}\n",
    )


# In a browser.


def visible(browser: Any, selector: str) -> list[str]:
    texts: list[str] = browser.execute_script(
        (
            "return [...document.querySelectorAll(arguments[0])].filter(e => e.offsetParent !=="
            " null).map(e => e.innerText)"
        ),
        selector,
    )
    return texts


def test_in_a_browser(browser: Any, odd: Path, graded: Path) -> None:
    for folder in (odd, graded):
        for width in (390, 1200):
            browser.execute_cdp_cmd(
                "Emulation.setDeviceMetricsOverride",
                {"width": width, "height": 2000, "deviceScaleFactor": 1, "mobile": width < 500},
            )
            browser.get((folder / "results/teacher.html").as_uri())
            assert (
                browser.execute_script("return document.documentElement.scrollWidth") == width
            ), folder
            assert (
                browser.execute_script("return performance.getEntriesByType('resource').length")
                == 0
            )
            assert browser.execute_script("return document.scripts.length") == 0
            assert not browser.get_log("browser")


def test_filter(browser: Any, odd: Path, graded: Path) -> None:
    browser.get((graded / "results/teacher.html").as_uri())
    assert (
        len(visible(browser, ".matrix tbody tr")) == 3
        and len(visible(browser, ".matrix tbody td > a")) == 15
    )
    browser.find_element("id", "show-task-2").click()
    assert len(visible(browser, ".matrix tbody td > a")) == 12
    assert visible(browser, ".counts tbody th") == ["1", "3", "4", "5"]
    assert visible(browser, "section.task h2") == ["Task 1", "Task 3", "Task 4", "Task 5"]
    browser.get((odd / "results/teacher.html").as_uri())
    assert len(visible(browser, ".matrix tbody tr")) == 15
    before = visible(browser, "section.answer h3 .grade")
    browser.find_element("xpath", "//label[contains(., 'agrees')]/input").click()
    assert len(visible(browser, ".matrix tbody tr")) == 13
    assert [words for words in before if words != "agrees"] == visible(
        browser, "section.answer h3 .grade"
    )


def test_dark_and_paper(browser: Any, graded: Path) -> None:
    def color() -> str:
        told: str = browser.execute_script("return getComputedStyle(document.body).backgroundColor")
        return told

    browser.get((graded / "results/teacher.html").as_uri())
    browser.execute_cdp_cmd(
        "Emulation.setEmulatedMedia",
        {"features": [{"name": "prefers-color-scheme", "value": "dark"}]},
    )
    assert color() == "rgb(23, 25, 27)"
    browser.execute_cdp_cmd(
        "Emulation.setEmulatedMedia",
        {"media": "print", "features": [{"name": "prefers-color-scheme", "value": "dark"}]},
    )
    assert color() == "rgb(255, 255, 255)"
    assert (
        visible(browser, ".filter") == visible(browser, ".back") == visible(browser, ".sql") == []
    )
    # The texts that are folded on the screen stand on paper.
    heights = browser.execute_script(
        "return [...document.querySelectorAll('.texts figure')].map(e =>"
        " e.getBoundingClientRect().height)"
    )
    assert heights and min(heights) > 20
    browser.execute_cdp_cmd("Emulation.setEmulatedMedia", {"media": "", "features": []})


# The rows as SQL.


def of_beers(ratest: Path) -> list[tuple[str, str, Witness]]:
    given = exercise.load(TOP / "examples/beers")
    found = []
    for task in given.tasks:
        for answer in task.answers:
            ran = products.run(
                ratest,
                given.folder / "schema.sql",
                given.folder,
                task.folder / "reference.sql",
                task.folder / f"answers/{answer.name}.sql",
            )
            outcome = read(
                Ran(ran.returncode, ran.stdout.encode(), ran.stderr.encode(), 0, ""), given.tables
            )
            assert isinstance(outcome, Witness)
            found.append((task.reference.decode(), answer.text.whole.decode(), outcome))
    return found


def test_rows_as_sql_in_sqlite(ratest: Path) -> None:
    tables = exercise.load(TOP / "examples/beers").tables
    for reference, answer, outcome in of_beers(ratest):
        database = sqlite3.connect(":memory:")
        database.executescript(draw.sql(outcome.kept, tables))
        assert set(database.execute(reference)) == {*outcome.only_first, *outcome.both}
        assert set(database.execute(answer)) == {*outcome.only_second, *outcome.both}


def test_rows_as_sql_in_postgres(ratest: Path, server: products.Postgres | None) -> None:
    if server is None:
        pytest.skip("no psql or initdb: apt-get install postgresql")
    psycopg = pytest.importorskip("psycopg")
    tables = exercise.load(TOP / "examples/beers").tables
    for reference, answer, outcome in of_beers(ratest):
        with psycopg.connect(f"{server.place} dbname=postgres") as database:
            database.execute("SET search_path = pg_temp")
            database.execute(draw.sql(outcome.kept, tables))
            assert set(database.execute(reference)) == {*outcome.only_first, *outcome.both}
            assert set(database.execute(answer)) == {*outcome.only_second, *outcome.both}
            database.rollback()


def test_odd_rows_as_sql(odd: Path) -> None:
    tables = exercise.load(odd).tables
    ran = Ran(1, odd_class.WITNESS.encode(), b"", 0, "")
    outcome = read(ran, tables)
    assert isinstance(outcome, Witness)
    database = sqlite3.connect(":memory:")
    database.executescript(draw.sql(outcome.kept, tables))
    kept = [
        tuple(row)
        for table in tables[:2]
        for row in database.execute(f"SELECT * FROM {draw.quoted(table.name)}")
    ]
    assert kept == [row.cells for row in outcome.kept]


# What is read of printed texts.


def test_printed_texts(odd: Path) -> None:
    tables = exercise.load(odd).tables

    def of(status: int, out: str, err: str = "") -> object:
        return read(Ran(status, out.encode(), err.encode(), 0, ""), tables)

    assert of(0, "agree\n") == Agree()
    assert of(0, "agree\nagree\n") == Died(0, "agree\nagree\n")
    assert of(1, "agree\n") == Died(1, "agree\n")
    assert of(4, "undecided: 7 conflicts\n") == Undecided(7, None)
    assert of(4, "undecided: 7 conflicts\nbest so far: 1\nt 9: 'a', NULL, -1\n") == Undecided(
        7, (Kept("t", 9, ("a", None, -1)),)
    )
    assert of(3, "", "ratest: query 2: syntax fault near byte 12\n") == Refused(
        "query 2", "syntax fault near byte 12", 12
    )
    assert of(
        3, "", "ratest: query 2: unknown column: x\nratest: query 1: not UTF-8 at byte 3\n"
    ) == Refused("query 2", "unknown column: x\nratest: query 1: not UTF-8 at byte 3", None)
    assert of(3, "", "ratest: table a: b: record 1, column 2: not UTF-8\n") == Refused(
        "table a", "b: record 1, column 2: not UTF-8", None
    )
