"""What a student sees of the own hand-ins, and does with them."""
from __future__ import annotations

import html
import re
import sqlite3
import time
from collections.abc import Iterator
from contextlib import closing, contextmanager
from datetime import timedelta
from pathlib import Path
from typing import Any

import pytest
from products import TOP, classroom
from served import Reply, serving
from test_serve_browser import write

pytest.importorskip("flask")
pytest.importorskip("waitress")

from classroom.web.hand_ins import HandIn, HandIns, last_before  # noqa: E402

RIGHT = (TOP / "examples/beers/3/reference.sql").read_text()
WRONG = (TOP / "examples/beers/3/answers/b.sql").read_text()
PROXY = ("--proxy", "127.0.0.1", "--user-header", "X-User")
ANN, BEN = {"X-User": "ann"}, {"X-User": "ben"}


def handed_in(reply: Reply) -> str:
    """The part of the page with what was handed in."""
    found = re.search(r'<section id="handed-in">(.*?)</section>', reply.body, re.DOTALL)
    assert found
    return html.unescape(found[1])


def texts(reply: Reply) -> list[str]:
    """What was handed in, that which counts first."""
    return re.findall(r"<pre[^>]*><code>(.*?)</code></pre>", handed_in(reply), re.DOTALL)


def number(reply: Reply, text: str) -> str:
    """By which an earlier text can be made to count."""
    _, _, behind = handed_in(reply).partition(f"<code>{text}</code>")
    found = re.search('name="number" value="([0-9]+)"', behind)
    assert found
    return found[1]


def collected(exercise: Path) -> str | None:
    """The answer of ann to task 3, as `collect` finds it."""
    for path in exercise.glob("3/answers/ann.sql"):
        path.unlink()
    (exercise / "class/collected.csv").unlink(missing_ok=True)
    assert classroom("collect", "--asked", exercise).returncode == 0
    path = exercise / "3/answers/ann.sql"
    return path.read_text() if path.exists() else None


@pytest.mark.parametrize("text", ["", " \n", "-- nothing yet\n", "/* a */ ; -- b"])
def test_an_empty_text_replaces_nothing(ratest: Path, beers: Path, text: str) -> None:
    with serving(beers, *PROXY) as server:
        server.ask("3", RIGHT, ANN, do="hand in")
        got = server.ask("3", text, ANN, do="hand in")
        assert "Not handed in: there is no query in it." in got.answer
        assert texts(got) == [RIGHT]
    assert collected(beers) == RIGHT


def test_what_is_handed_in_is_seen(ratest: Path, beers: Path) -> None:
    with serving(beers, *PROXY) as server:
        assert not handed_in(server.send("GET", "/", None, ANN)).strip()
        server.ask("1", "SELECT 1", ANN, do="hand in")
        receipt = server.ask("3", WRONG, ANN, do="hand in").answer
        server.ask("3", RIGHT, ANN, do="hand in")
        got = server.send("GET", "/", None, ANN)
        assert texts(got) == ["SELECT 1", html.unescape(RIGHT), WRONG]
        digest = re.search('"digest">([0-9a-f]{64})<', receipt)
        assert digest and digest[1] in handed_in(got)
        assert (
            len(re.findall(r"It came on \d{4}-\d\d-\d\d at \d\d:\d\d UTC\.", handed_in(got))) == 3
        )
        again = server.ask("3", RIGHT, ANN, do="hand in")
        assert "This text is handed in already" in again.answer and texts(again) == texts(got)
        # Nobody else sees it, nor who has no login.
        assert not handed_in(server.send("GET", "/", None, BEN)).strip()
    with serving(beers) as server:
        assert not handed_in(server.send("GET", "/")).strip()


def test_an_earlier_text_counts_again_and_none_does(ratest: Path, beers: Path) -> None:
    with serving(beers, *PROXY) as server:
        for text in (WRONG, RIGHT):
            got = server.ask("3", text, ANN, do="hand in")
        earlier = number(got, WRONG)
        got = server.post(ANN, task="3", do="count", number=earlier)
        assert got.status == 200 and texts(got) == [WRONG, RIGHT]
        assert collected(beers) == WRONG
        # A text of another student, or none, is not there.
        for headers, wanted in ((BEN, earlier), (ANN, "999"), (ANN, ""), (ANN, "-1"), (ANN, "x")):
            assert server.post(headers, task="3", do="count", number=wanted).status == 404
        assert texts(server.send("GET", "/", None, ANN)) == [WRONG, RIGHT]
        got = server.post(ANN, task="3", do="take back")
        assert "You took it back. Nothing counts" in handed_in(got) and len(texts(got)) == 2
        assert collected(beers) is None
        assert server.post(BEN, task="3", do="take back").status == 404
        # A text that is handed in after that counts, though it is the same as an earlier one.
        assert texts(server.ask("3", RIGHT, ANN, do="hand in"))[0] == RIGHT
    assert collected(beers) == RIGHT


def test_two_statements_are_taken_and_told(ratest: Path, beers: Path) -> None:
    with serving(beers, *PROXY) as server:
        got = server.ask("3", "SELECT 1; SELECT 2", ANN, do="hand in")
        assert "It will be graded by hand: more than one statement." in got.answer
        assert texts(got) == ["SELECT 1; SELECT 2"]
    assert collected(beers) == "SELECT 1; SELECT 2"


def test_after_the_end_nothing_changes(ratest: Path, beers: Path) -> None:
    with serving(beers, *PROXY) as server:
        for text in (WRONG, RIGHT):
            got = server.ask("3", text, ANN, do="hand in")
        earlier = number(got, WRONG)
    (beers / "exercise.toml").write_text("closes = 2020-01-01T12:00:00+00:00\n")
    with serving(beers, *PROXY) as server:
        got = server.send("GET", "/", None, ANN)
        assert texts(got) == [RIGHT, WRONG] and "<button" not in handed_in(got)
        for action in ("count", "take back", "hand in"):
            got = server.post(ANN, task="3", do=action, number=earlier, query="SELECT 3")
            assert got.status == 403 and texts(got) == [RIGHT, WRONG]


@contextmanager
def locked(path: Path) -> Iterator[None]:
    """Another program writes the file."""
    with closing(sqlite3.connect(path, isolation_level=None)) as other:
        other.execute("BEGIN IMMEDIATE")
        yield
        other.execute("ROLLBACK")


def test_a_hand_in_that_fails_keeps_the_text(ratest: Path, beers: Path) -> None:
    with serving(beers, *PROXY, errors=None) as server:
        server.ask("3", WRONG, ANN, do="hand in")
        with locked(beers / "results/handed-in.db"):
            got = server.ask("3", RIGHT, ANN, do="hand in")
        assert got.status == 503 and "Not handed in: the server could not write it." in got.answer
        assert RIGHT in html.unescape(got.body)
        assert texts(got) == [WRONG]
        assert texts(server.ask("3", RIGHT, ANN, do="hand in")) == [RIGHT, WRONG]
        assert "handed-in.db: database is locked" in server.errors.read_text()


def test_the_health_recovers(ratest: Path, beers: Path) -> None:
    """One lock of a moment is nothing wrong; while it lasts, that is said."""
    with serving(beers, errors=None) as server:
        assert server.send("GET", "/health").status == 200
        with locked(beers / "results/asked.db"):
            assert server.ask("3", RIGHT).verdict == "agrees"
            got = server.send("GET", "/health")
            assert got.status == 503 and '"database is locked"' in got.body
        assert server.send("GET", "/health").status == 200
        assert server.ask("3", WRONG).verdict == "differs on 5 rows"
        told = server.errors.read_text()
    assert "a question is not kept: database is locked" in told
    assert "questions are kept again" in told
    with closing(sqlite3.connect(beers / "results/asked.db")) as database:
        assert [text for (text,) in database.execute("SELECT text FROM asked")] == [WRONG]


# The file itself.


def test_a_choice_after_the_deadline_does_not_count(tmp_path: Path) -> None:
    made = HandIns(tmp_path / "h.db")
    first = made.put("ann", "3", "first")
    made.put("ann", "3", "second")
    kept = made.kept("ann")["3"]
    assert [(one.text, one.counts) for one in kept] == [("second", True), ("first", False)]
    assert made.choose("ann", "3", kept[1].number)
    made.put("ben", "3", "of ben")
    assert made.choose("ben", "3", None)
    made.close()

    def counting(closes: timedelta) -> list[str]:
        return [one.text for one in last_before(tmp_path / "h.db", first.time + closes)]

    assert counting(timedelta(seconds=60)) == ["first"]
    with closing(sqlite3.connect(tmp_path / "h.db")) as database, database:
        database.execute(
            "UPDATE chosen SET time = ?", ((first.time + timedelta(seconds=61)).isoformat(),)
        )
    assert counting(timedelta(seconds=60)) == ["second", "of ben"]


def test_a_file_of_before_is_taken_up(tmp_path: Path) -> None:
    """With the table that there was."""
    with closing(sqlite3.connect(tmp_path / "h.db")) as database, database:
        database.executescript(
            "CREATE TABLE handed_in (id INTEGER PRIMARY KEY, time TEXT NOT NULL, login TEXT NOT"
            " NULL, task TEXT NOT NULL, text TEXT NOT NULL, digest TEXT NOT NULL);"
            "INSERT INTO handed_in VALUES (1, '2026-01-01T10:00:00+00:00', 'ann', '3', 'x', 'd');"
        )
    (found,) = last_before(tmp_path / "h.db", None)
    assert isinstance(found, HandIn) and found.text == "x"
    made = HandIns(tmp_path / "h.db")
    (kept,) = made.kept("ann")["3"]
    assert kept.counts and made.choose("ann", "3", None)
    made.close()
    assert last_before(tmp_path / "h.db", None) == []


# In a browser: what was typed survives.


def typed(browser: Any) -> str:
    return str(browser.find_element("id", "query").get_property("value"))


def choose(browser: Any, task: str) -> None:
    browser.find_element("css selector", f"#task option[value='{task}']").click()


def test_a_text_survives_a_reload(ratest: Path, beers: Path, browser: Any) -> None:
    with serving(beers) as server:
        address = f"http://127.0.0.1:{server.port}/"
        browser.get(address)
        for task in ("3", "1"):
            choose(browser, task)
            write(browser, f"SELECT {task}")
        browser.get(address)
        choose(browser, "3")
        assert typed(browser) == "SELECT 3"
        choose(browser, "1")
        assert typed(browser) == "SELECT 1"
        # A task for which nothing was typed leaves what is there.
        choose(browser, "2")
        assert typed(browser) == "SELECT 1"
        browser.execute_script("window.sessionStorage.clear()")
        browser.get(address)
        assert typed(browser) == ""


def test_a_page_that_the_server_has_forgotten_goes_on(
    ratest: Path, beers: Path, browser: Any
) -> None:
    """The script takes the new token, and the text stays."""
    with serving(beers) as server:
        port = server.port
        browser.get(f"http://127.0.0.1:{port}/")
        choose(browser, "3")
        write(browser, "SELECT name FROM bar")
    with serving(beers, port=port):
        for told in ("older than the server", "differs on"):
            browser.find_element("css selector", "#ask button").click()
            for _ in range(600):
                if told in browser.find_element("id", "answer").text:
                    break
                time.sleep(0.05)
            else:
                pytest.fail(f"{told}: never said")
            assert typed(browser) == "SELECT name FROM bar"
    # What the browser said of the first one; its log is that of all tests.
    assert [line["message"] for line in browser.get_log("browser") if "409" in line["message"]]
