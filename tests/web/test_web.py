"""The page without a server: its answers are the native program's, byte for byte, in a browser and
in node; what it draws is what the page of a class draws; and it is used as a student does."""
from __future__ import annotations

import os
from collections import Counter
from collections.abc import Sequence
from concurrent.futures import ThreadPoolExecutor
from dataclasses import asdict
from pathlib import Path
from random import Random
from typing import Any

import pytest
from asking import MEBIBYTE, Asking, Browser, Node, Unable
from compare.draw import Limits
from questions import ARGUMENTS, Question, Reply, hard, large, native, of_seed, questions

from ratest import draw, printed
from ratest.places import place_of
from ratest.schema import tables_of

COUNT = int(os.environ.get("WEB_COUNT", "300"))
WORKERS = os.cpu_count() or 1
OUT_OF_MEMORY = 7
# Nothing else takes more memory than this one, of all that needs no file.
LARGE = Question(("made", "400"), {})


@pytest.fixture
def opened(browser: Any, page: Path) -> Any:
    browser.execute_cdp_cmd(
        "Emulation.setDeviceMetricsOverride",
        {"width": 1000, "height": 980, "deviceScaleFactor": 1, "mobile": False},
    )
    browser.get(page.as_uri())
    browser.get_log("browser")
    return browser


@pytest.fixture(scope="session")
def answered(ratest: Path) -> list[tuple[Question, Reply]]:
    """The questions, with the native answers."""
    asked = questions(COUNT)
    with ThreadPoolExecutor(WORKERS) as pool:
        return list(zip(asked, pool.map(lambda question: native(ratest, question), asked)))


def compare(host: Asking, answered: Sequence[tuple[Question, Reply]]) -> None:
    found = host.ask([question for question, _ in answered])
    differing = [
        (*pair, told) for pair, told in zip(answered, found, strict=True) if told != pair[1]
    ]
    assert not differing, f"{len(differing)} of {len(found)} differ, the first: {differing[0]}"


def test_questions_are_of_each_kind(answered: list[tuple[Question, Reply]]) -> None:
    counts = Counter(reply.status for _, reply in answered)
    assert (
        set(counts) >= {0, 1, 2, 3, 4, 5, 6}
        and min(counts[status] for status in (0, 1, 3)) > COUNT // 20
    ), counts
    assert len(answered) == COUNT and {question.words for question, _ in answered} >= set(ARGUMENTS)


def test_in_a_browser(opened: Any, answered: list[tuple[Question, Reply]]) -> None:
    compare(Browser(opened), answered)


def test_in_node(page: Path, answered: list[tuple[Question, Reply]]) -> None:
    try:
        compare(Node(page), answered)
    except Unable as why:
        pytest.skip(str(why))


def test_large_texts(opened: Any, page: Path, ratest: Path) -> None:
    asked = large()
    wanted = [native(ratest, it) for it in asked]
    assert [it.status for it in wanted] == [3, 3, 0]
    assert [Browser(opened).ask([it]) for it in asked] == [[it] for it in wanted]
    try:
        assert Node(page).ask(asked) == wanted
    except Unable as why:
        pytest.skip(str(why))


def test_little_memory(opened: Any, ratest: Path) -> None:
    host = Browser(opened)
    assert host.ask([LARGE]) == [native(ratest, LARGE)]
    (small,) = host.ask([LARGE], 8 * MEBIBYTE)
    assert (small.status, small.out) == (OUT_OF_MEMORY, b"")
    # Less than the module begins with.
    assert host.ask([LARGE], MEBIBYTE) == [Reply(OUT_OF_MEMORY, b"", b"")]
    assert host.ask([LARGE]) == [native(ratest, LARGE)]


# What is drawn is what the page of a class draws.


def drawn_by_class(question: Question, reply: Reply) -> dict[str, Any] | None:
    tables = tables_of(question.files["schema.sql"].decode())
    outcome = printed.outcome_of(reply.status, reply.out.decode(), reply.err.decode(), tables)
    if isinstance(outcome, printed.Undecided) and outcome.best is None:
        return None
    assert isinstance(outcome, (printed.Witness, printed.Undecided))
    return asdict(draw.drawing(outcome, tables))


DRAWN = """
const [status, out, err, schema] = arguments;
const tables = tablesOf(schema);
const outcome = outcomeOf(status, out, err, tables);
if (outcome.kind === "undecided" && outcome.best === null) return null;
const { reference, answer, sql, tables: kept } = drawingOf(outcome, tables);
const rows = (found) => found && found.map(({ isOnly, cells }) => ({ is_only: isOnly, cells }));
const lines = (found) => found.map(({ number, cells }) => ({ number: Number(number), cells }));
return { tables: kept.map((it) => ({ ...it, lines: lines(it.lines) })), reference: rows(reference), answer: rows(answer), sql };
"""


def listed(value: Any) -> Any:
    """As JSON has it: without tuples."""
    if isinstance(value, dict):
        return {key: listed(it) for key, it in value.items()}
    return [listed(it) for it in value] if isinstance(value, (list, tuple)) else value


def test_drawings_are_those_of_the_class_page(
    opened: Any, answered: list[tuple[Question, Reply]]
) -> None:
    compared = 0
    for question, reply in answered:
        if reply.status in (1, 4) and "made" not in question.words:
            schema = question.files["schema.sql"].decode()
            found = opened.execute_script(
                DRAWN, reply.status, reply.out.decode(), reply.err.decode(), schema
            )
            assert found == listed(drawn_by_class(question, reply)), question
            compared += 1
    assert compared > COUNT // 10


TEXTS = [
    "",
    " ",
    "a",
    " a",
    "a ",
    "\ta",
    "a\x1c",
    "a\x85",
    "\ufeffa",
    "\xa0a",
    "a\u3000",
    "NULL",
    "null",
    "nULL ",
    "12",
    "-12",
    "--12",
    "1 2",
    "'",
    "''",
    "'a'",
    "'a\n'b'",
    "it's",
    "a\r\nb",
    "a\rb",
    "\x00\x07\x7f\x80\x9f",
    "\u202ea\u2066",
    "\ufffe\uffff",
    "<b>&amp;</b>",
    "☃😀",
]


def test_texts_are_drawn_as_in_the_class_page(opened: Any) -> None:
    values: list[int | str | None] = [*TEXTS, None, 0, -5, 2**127]
    cells = [
        {
            "kind": "null" if it is None else "number" if isinstance(it, int) else "text",
            "text": "NULL" if it is None else str(it),
        }
        for it in values
    ]
    found = opened.execute_script("return arguments[0].map(drawnCell)", cells)
    assert found == [asdict(draw.cell(it)) for it in values]
    found = opened.execute_script("return arguments[0].map(pictures)", TEXTS)
    assert found == [draw.pictures(it) for it in TEXTS]
    letters = [chr(code) for code in range(0x10000) if not 0xD800 <= code < 0xE000]
    assert opened.execute_script("return arguments[0].map(pictures)", letters) == [
        draw.pictures(it) for it in letters
    ]


def test_places_are_those_of_the_served_page(opened: Any) -> None:
    random = Random(1)
    texts = [of_seed(seed, Limits()).files["1.sql"].decode() for seed in range(20)]
    texts += ["", "é\n☃😀 größe\n", "\n\n"]
    asked = [(text, random.randrange(len(text.encode()) + 3)) for text in texts for _ in range(5)]
    found = opened.execute_script(
        "return arguments[0].map(([text, byte]) => placeOf(text, byte))", asked
    )
    for (text, byte), it in zip(asked, found, strict=True):
        wanted = place_of(text, byte)
        assert (it["line"], it["column"], it["before"], it["marked"]) == (
            wanted.line,
            wanted.column,
            wanted.before,
            wanted.marked,
        )
        assert (it["from"], it["to"]) == wanted.span


@pytest.mark.parametrize(
    "status, out, err, kind",
    [
        (0, "agree\nagree\n", "", "none"),
        (1, "agree\n", "", "none"),
        (0, "agree\n", "", "agree"),
        (7, "", "", "memory"),
        (9, "", "", "none"),
        (1, "witness: 1\nt 1: 'a', 1\n", "", "none"),
        (1, "witness: 1\nt 1: 'a\n", "", "none"),
        (
            1,
            "witness: 1\nt 1: 1\nonly query 1: 0\nonly query 2: 0\nboth: 1\n  1\n  1\n",
            "",
            "none",
        ),
        (1, "witness: 1\nt 1: 1\nonly query 1: 0\nonly query 2: 0\nboth: 1\n  1\n", "", "witness"),
        (4, "undecided: 7 conflicts\n", "", "undecided"),
        (3, "", "ratest: query 2: unknown column: a\nb<i>\n", "refused"),
        (3, "", "refused\n", "none"),
        (5, "", "ratest: limit: work 662 is above 9\n", "limit"),
        (5, "", "", "none"),
    ],
)
def test_printed_texts(opened: Any, status: int, out: str, err: str, kind: str) -> None:
    tables = [{"name": "t", "columns": [{"name": "a", "kind": "INTEGER"}]}]
    found = opened.execute_script("return outcomeOf(...arguments)", status, out, err, tables)
    assert found["kind"] == kind
    if kind == "none":
        assert found["printed"] == out + err


# The page is used.


def texts(browser: Any, selector: str) -> list[str]:
    return [element.text for element in browser.find_elements("css selector", selector)]


def choose(browser: Any, name: str) -> None:
    browser.find_element("xpath", f"//option[. = '{name}']").click()


def put(browser: Any, name: str, text: str) -> None:
    browser.execute_script("document.getElementById(arguments[0]).value = arguments[1]", name, text)


def put_tables(browser: Any, rows: dict[str, str]) -> None:
    """Of a page that has one empty table."""
    for _ in range(len(rows) - 1):
        browser.find_element("id", "add").click()
    fields = browser.find_elements("css selector", "#rows .name, #rows .rows")
    for field, text in zip(fields, (it for pair in rows.items() for it in pair), strict=True):
        browser.execute_script("arguments[0].value = arguments[1]", field, text)


def state(browser: Any) -> str:
    text: str = browser.find_element("id", "state").text
    return text


def wait(browser: Any, begins: str) -> None:
    from selenium.webdriver.support.wait import WebDriverWait

    WebDriverWait(browser, 60, 0.05).until(lambda it: state(it).startswith(begins))


def ask(browser: Any, query: str | None = None) -> list[str]:
    if query is not None:
        put(browser, "query", query)
    browser.execute_script("document.getElementById('state').textContent = ''")
    browser.find_element("id", "ask").click()
    wait(browser, "Answered in ")
    return texts(browser, "#answer h2")


def test_a_student_asks(opened: Any) -> None:
    choose(opened, "beers, task 3, answer b")
    assert ask(opened) == ["differs on 5 rows"]
    assert texts(opened, ".kept caption") == ["bar", "beer", "serves"]
    assert texts(opened, ".kept td") == [
        "Joe's",
        "Durham",
        "Dixie",
        "Dixie Brewing",
        "Corona",
        "Grupo Modelo",
        "Joe's",
        "Dixie",
        "3",
        "Joe's",
        "Corona",
        "NULL",
    ]
    assert texts(opened, ".result caption") == ["Reference: 0 rows", "Answer: 1 row"]
    assert texts(opened, ".only th, .only td") == ["only here", "Joe's"]
    picture(opened)
    assert ask(opened, "SELECT bar\nFROM WHERE x") == [
        "refused: query 2: syntax fault near byte 16 (line 2, column 6)"
    ]
    assert texts(opened, "mark") == ["WHERE"]
    assert opened.execute_script("return [query.selectionStart, query.selectionEnd]") == [16, 21]
    assert ask(opened, opened.find_element("id", "reference").get_property("value")) == ["agrees"]
    choose(opened, "numbers")
    assert ask(opened) == ["differs on 1 row"] and texts(opened, ".kept td") == ["2", "20"]
    # Nothing is asked for, and nothing is refused.
    entries = opened.execute_script(
        "return performance.getEntriesByType('resource').map(it => it.name)"
    )
    assert not [name for name in entries if not name.startswith("blob:")]
    assert not opened.get_log("browser")


def picture(browser: Any) -> None:
    """Takes the README's picture where WEB_PICTURE names a file for it."""
    path = os.environ.get("WEB_PICTURE")
    if path:
        browser.execute_script("document.activeElement.blur(); scrollTo(0, 0)")
        assert browser.save_screenshot(path)


def test_rows_of_ones_own(opened: Any) -> None:
    choose(opened, "your own")
    put(opened, "schema", 'CREATE TABLE t (a INTEGER); CREATE TABLE "<b>" ("<i>" TEXT);')
    put_tables(opened, {"t": "a\n1\n2\n", "<b>": "<i>\n<img src=x onerror=alert(1)>\n"})
    put(opened, "reference", 'SELECT "<i>" FROM "<b>"')
    assert ask(opened, "SELECT '</script><script>alert(2)</script>' FROM t") == ["differs on 1 row"]
    assert ask(opened, 'SELECT x."<i>" FROM "<b>" x WHERE x."<i>" = \'a\'') == ["differs on 1 row"]
    assert texts(opened, ".kept caption") == ["<b>"] and texts(opened, ".kept td") == [
        "<img src=x onerror=alert(1)>"
    ]
    assert not opened.find_elements(
        "css selector", "#answer img, #answer script, #answer b, #answer i"
    )
    opened.find_elements("css selector", ".table button")[1].click()
    assert ask(opened) == ["no verdict"]
    assert not opened.get_log("browser")


def test_stop(opened: Any) -> None:
    texts_of = {name: text.decode() for name, text in hard().files.items()}
    choose(opened, "your own")
    put_tables(opened, {"e": texts_of["data/e.csv"], "v": texts_of["data/v.csv"]})
    for name, text in (("schema", "schema.sql"), ("reference", "1.sql"), ("query", "2.sql")):
        put(opened, name, texts_of[text])
    opened.find_element("id", "ask").click()
    wait(opened, "Looks for")
    assert not opened.find_element("id", "ask").is_enabled()
    opened.find_element("id", "stop").click()
    wait(opened, "Stopped after ")
    assert texts(opened, "#answer *") == [] and not opened.find_element("id", "stop").is_enabled()
    choose(opened, "numbers")
    assert ask(opened) == ["differs on 1 row"]


def test_page_opens_in_a_narrow_window(opened: Any) -> None:
    opened.execute_cdp_cmd(
        "Emulation.setDeviceMetricsOverride",
        {"width": 390, "height": 1200, "deviceScaleFactor": 1, "mobile": True},
    )
    choose(opened, "beers, task 3, answer b")
    assert ask(opened) == ["differs on 5 rows"]
    assert opened.execute_script("return document.documentElement.scrollWidth") == 390


def test_page_is_small(page: Path) -> None:
    assert page.stat().st_size < 1_000_000
