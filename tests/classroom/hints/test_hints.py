"""Hints where students ask, in the feedback and for the teacher."""
from __future__ import annotations

import csv
import html
import io
import os
import re
import signal
import threading
import time
from datetime import datetime, timedelta, timezone
from pathlib import Path
from typing import Any

import pytest
from products import TOP, classroom
from served import Reply, serving

pytest.importorskip("sqlglot", reason="no sqlglot: apt-get install python3-sqlglot")
pytest.importorskip("flask")
pytest.importorskip("waitress")

from classroom.exercise import exercise  # noqa: E402
from classroom.hints import ask_children as asking  # noqa: E402
from classroom.hints import find_mistakes as whole  # noqa: E402
from classroom.grading.store import Results  # noqa: E402

WRONG = (TOP / "examples/beers/5/answers/b.sql").read_text()
REFERENCE = (TOP / "examples/beers/5/reference.sql").read_text()
SECRET = "'Murphy''s Bar'"


@pytest.fixture(autouse=True)
def plus(monkeypatch: pytest.MonkeyPatch, ratest_plus: Path) -> None:
    monkeypatch.setenv("RATEST_PLUS", str(ratest_plus))


def hints(got: Reply) -> list[str]:
    return [html.unescape(text) for text in re.findall(r'<p class="hint">(.*?)</p>', got.answer)]


def button(got: Reply) -> str:
    found = re.search(r'<button name="do" value="hint">(.*?)</button>', got.answer)
    return html.unescape(found[1]) if found else ""


def test_steps_that_are_asked_for(ratest: Path, beers: Path) -> None:
    (beers / "exercise.toml").write_text("hints = 3\n")
    with serving(beers) as server:
        got = server.ask("5", WRONG)
        assert (
            got.verdict.startswith("differs on ")
            and hints(got) == []
            and button(got) == "Where is the mistake?"
        )
        got = server.hint("5", WRONG, 1)
        assert (
            hints(got)
            == [
                "One change in the inner query's WHERE is enough: with it your query answers"
                " rightly, apart from duplicates and order, on every part of these rows. There are"
                " other places where one change would do."
            ]
            or len(hints(got)) == 1
        )
        assert "<mark>" not in got.answer and button(got) == "Show the place"
        got = server.hint("5", WRONG, 2)
        assert len(hints(got)) == 2 and "<mark>t.price &lt;= s.price</mark>" in got.answer
        assert 'data-from="' in got.body and button(got) == "What kind of mistake is it?"
        got = server.hint("5", WRONG, 3)
        assert hints(got)[2] == "Look at the comparison." and button(got) == ""
        # Nothing of the reference, and no changed text.
        assert "t.price < s.price" not in html.unescape(got.body)
        # A right answer has none, nor one that is refused.
        for query in (REFERENCE, "SELECT nosuch FROM bar"):
            assert button(server.ask("5", query)) == "" and hints(server.hint("5", query, 1)) == []
        assert hints(server.hint("5", WRONG, 4)) == []
        assert (
            server.send(
                "POST",
                "/",
                b"task=9&query=SELECT&do=hint&step=1",
                {"Content-Type": "application/x-www-form-urlencoded"},
            ).status
            == 404
        )


def test_the_highest_step_and_its_moment(ratest: Path, beers: Path) -> None:
    """Of exercise.toml; by default two steps."""
    with serving(beers) as server:
        assert button(server.hint("5", WRONG, 1)) == "Show the place"
        got = server.hint("5", WRONG, 3)
        assert len(hints(got)) == 2 and button(got) == ""
    (beers / "exercise.toml").write_text("hints = 0\n")
    with serving(beers) as server:
        assert button(server.ask("5", WRONG)) == "" and hints(server.hint("5", WRONG, 1)) == []
    later = datetime.now(timezone.utc) + timedelta(days=1)
    (beers / "exercise.toml").write_text(f"hints_from = {later.isoformat()}\n")
    with serving(beers) as server:
        assert button(server.ask("5", WRONG)) == "" and hints(server.hint("5", WRONG, 1)) == []
    (beers / "exercise.toml").write_text(
        f"hints_from = {(later - timedelta(days=2)).isoformat()}\n"
    )
    with serving(beers, "--only-verdict") as server:
        assert button(server.ask("5", WRONG)) == "" and hints(server.hint("5", WRONG, 1)) == []


def test_a_hint_counts_as_a_counterexample(ratest: Path, beers: Path) -> None:
    with serving(beers, "--hourly", "2") as server:
        got = server.ask("5", WRONG)
        cookie = {"Cookie": got.cookies[0].partition(";")[0]}
        assert len(hints(server.hint("5", WRONG, 1, cookie))) == 1
        assert hints(server.hint("5", WRONG, 2, cookie)) == [
            "No more hints are shown to you within this hour."
        ]
        assert len(hints(server.hint("5", WRONG, 1, cookie))) == 1  # it was shown before


def test_the_guard_is_never_served(ratest: Path, beers: Path) -> None:
    guard = beers / "guard"
    guard.mkdir()
    for path in beers.glob("*.csv"):
        (guard / path.name).write_bytes(path.read_bytes())
    (guard / "schema.sql").write_bytes((beers / "schema.sql").read_bytes())
    (guard / "bar.csv").write_text((beers / "bar.csv").read_text() + "Guarded Bar,Guarded Town\n")
    with serving(beers) as server:
        for address in (
            "/",
            "/about",
            "/health",
            "/guard/",
            "/guard/bar.csv",
            "/e/guard/",
            "/relations.svg",
        ):
            assert "Guarded" not in server.send("GET", address).body
        for step in (1, 2):
            assert "Guarded" not in server.hint("5", WRONG, step).body
        assert "Guarded" not in server.ask("5", WRONG).body
    assert classroom("grade", beers).returncode in (0, 1)
    assert classroom("mistakes", beers, "--task", "5").returncode == 0
    assert classroom("page", beers).returncode == 0
    assert classroom("feedback", beers).returncode == 0
    for path in (beers / "results").rglob("*"):
        assert not path.is_file() or b"Guarded" not in path.read_bytes(), path


def test_the_mistakes_of_a_class(ratest: Path, beers: Path) -> None:
    (beers / "5/answers/d.sql").write_text(WRONG.replace("Wrong", "Also wrong"))
    (beers / "5/answers/e.sql").write_text("SELECT s.bar, s.beer FROM serves s")
    assert classroom("mistakes", beers).returncode == 1  # not graded
    classroom("grade", beers)
    before = (beers / "results/teacher.html").read_text()
    ran = classroom("mistakes", beers)
    assert (ran.returncode, ran.stderr) == (0, "")
    lines = list(
        csv.DictReader(io.StringIO((beers / "results/mistakes.csv").read_text(), newline=""))
    )
    assert sum(int(line["answers"]) for line in lines) == 17 and {
        line["decided_by"] for line in lines
    } == {"proved"}
    fifth = [line for line in lines if line["task"] == "5"]
    assert fifth[0]["mistake"] == "as the reference with <= for < in the inner query's WHERE"
    assert (fifth[0]["answers"], fifth[0]["place"], fifth[0]["kind"], fifth[0]["names"]) == (
        "2",
        "the inner query's WHERE",
        "comparison",
        "b; d",
    )
    assert "t.price < s.price" in fifth[0]["repair"]
    assert ran.stdout.splitlines()[-1] == f"see {beers}/results/mistakes.csv"
    assert (
        "  2 answers: as the reference with <= for < in the inner query's WHERE (the inner query's"
        " WHERE)" in ran.stdout
    )
    page = html.unescape((beers / "results/teacher.html").read_text())
    assert (
        page != html.unescape(before)
        and "The mistake: as the reference with <= for < in the inner query's WHERE" in page
    )
    assert "with which it agrees" in page
    # What is kept is not looked for again, and a page for students has nothing of it.
    kept = {path: path.stat().st_mtime_ns for path in (beers / "results/mistakes").iterdir()}
    assert classroom("mistakes", beers).stdout == ran.stdout
    assert {
        path: path.stat().st_mtime_ns for path in (beers / "results/mistakes").iterdir()
    } == kept
    text = html.unescape((beers / "results/students.html").read_text())
    assert "as the reference with" not in text and "with which it agrees" not in text
    assert classroom("mistakes", beers, "--task", "9").stderr == "classroom: there is no task 9\n"


def test_hints_in_the_feedback(ratest: Path, beers: Path) -> None:
    """Each is opened by itself; as many as exercise.toml says, and from when it says."""
    (beers / "5/answers/b.sql").write_text("\n  " + WRONG.replace("\n", "\r\n"))
    classroom("grade", beers)
    assert classroom("mistakes", beers, "--task", "5").returncode == 0
    assert classroom("feedback", beers).returncode == 0
    page = (beers / "results/feedback/b.html").read_text()
    assert page.count("<summary>Hint ") == 2 and "<mark>t.price &lt;= s.price</mark>" in page
    text = (beers / "results/feedback/b.md").read_text()
    assert "Hint 2 of 2: Here:" in text and "```sql\nt.price <= s.price\n```" in text
    assert "t.price < s.price" not in html.unescape(page) + text
    (beers / "exercise.toml").write_text("hints_from = 2999-01-01T00:00:00Z\n")
    assert classroom("feedback", beers).returncode == 0
    assert "<summary>Hint " not in (beers / "results/feedback/b.html").read_text()


def test_two_changes(ratest: Path, beers: Path) -> None:
    """By `--deep` alone."""
    for task in "1234":
        for path in (beers / task / "answers").iterdir():
            path.unlink()
    for path in (beers / "5/answers").iterdir():
        path.unlink()
    (beers / "5/answers/two.sql").write_text(
        "SELECT s.beer, s.bar FROM serves s WHERE s.price IS NOT NULL AND NOT EXISTS (SELECT * FROM"
        " serves t WHERE t.bar = s.bar AND t.price > s.price)"
    )
    classroom("grade", beers)
    assert "no single change was found" in classroom("mistakes", beers).stdout
    ran = classroom("mistakes", beers, "--deep")
    assert ran.returncode == 0 and "right with two changes: " in ran.stdout, ran.stdout + ran.stderr


def test_pick_and_import_keep_a_guard(
    ratest: Path, ratest_plus: Path, beers: Path, tmp_path: Path
) -> None:
    source = tmp_path / "source"
    source.mkdir()
    for path in (*beers.glob("*.csv"), beers / "schema.sql"):
        (source / path.name).write_bytes(path.read_bytes())
    few = tmp_path / "few"
    (few / "5").mkdir(parents=True)
    (few / "5/reference.sql").write_text(REFERENCE)
    assert classroom("pick", source, few).returncode == 0
    rows = {path.name: set(path.read_text().splitlines()) for path in few.glob("*.csv")}
    guarded = {
        path.name: set(path.read_text().splitlines()) for path in (few / "guard").glob("*.csv")
    }
    assert rows.keys() == guarded.keys() and all(rows[name] <= guarded[name] for name in rows)
    assert sum(map(len, guarded.values())) > sum(map(len, rows.values()))
    import sqlite3

    database = sqlite3.connect(tmp_path / "d.db")
    database.executescript(
        "CREATE TABLE t (a INTEGER PRIMARY KEY, n TEXT); INSERT INTO t WITH RECURSIVE c(x) AS"
        " (SELECT 1 UNION ALL SELECT x + 1 FROM c WHERE x < 50) SELECT x, 'n' || x FROM c;"
    )
    database.close()
    assert (
        classroom("import", tmp_path / "d.db", tmp_path / "imported", "--rows", "5").returncode == 0
    )
    assert len((tmp_path / "imported/t.csv").read_text().splitlines()) == 6
    assert len((tmp_path / "imported/guard/t.csv").read_text().splitlines()) == 51
    assert classroom("import", tmp_path / "d.db", tmp_path / "whole").returncode == 0
    assert not (tmp_path / "whole/guard").exists()


def texts(browser: Any, selector: str) -> list[str]:
    return [element.text for element in browser.find_elements("css selector", selector)]


@pytest.mark.parametrize("has_script", [True, False])
def test_hints_by_keyboard(ratest: Path, beers: Path, browser: Any, has_script: bool) -> None:
    """Each step is reached and asked for by the keyboard alone, and the place is marked."""
    from selenium.webdriver.common.keys import Keys

    (beers / "exercise.toml").write_text("hints = 3\n")

    def press(*keys: str) -> None:
        for key in keys:
            browser.switch_to.active_element.send_keys(key)

    def to_button(name: str) -> None:
        for _ in range(60):
            if browser.switch_to.active_element.text == name:
                return
            press(Keys.TAB)
        pytest.fail(f"the keyboard does not reach {name}")

    def until(count: int) -> None:
        for _ in range(600):
            if len(browser.find_elements("css selector", "#answer .hint")) == count:
                return
            time.sleep(0.05)
        pytest.fail("no hint came")

    with serving(beers) as server:
        browser.execute_cdp_cmd("Emulation.setScriptExecutionDisabled", {"value": not has_script})
        try:
            browser.get(f"http://127.0.0.1:{server.port}/")
            browser.find_element("css selector", "#task option[value='5']").click()
            query = " ".join(WRONG.splitlines()[1:])
            if has_script:
                browser.execute_script(
                    "document.querySelector('.CodeMirror')?.CodeMirror.setValue(arguments[0])",
                    query,
                )
            if browser.find_element("id", "query").get_property("value") != query:
                browser.find_element("id", "query").send_keys(query)
            browser.find_element("css selector", "#ask button").click()
            for _ in range(600):
                if browser.find_elements("css selector", ".ask-hint"):
                    break
                time.sleep(0.05)
            for count, name in enumerate(
                ("Where is the mistake?", "Show the place", "What kind of mistake is it?"), 1
            ):
                to_button(name)
                press(Keys.ENTER)
                until(count)
                assert texts(browser, "#answer mark") == (
                    [] if count < 2 else ["t.price <= s.price"]
                )
                if has_script and count > 1:
                    # The place is selected where one goes on writing.
                    assert (
                        browser.execute_script(
                            "const of = document.querySelector('.CodeMirror')?.CodeMirror; return"
                            " of ? of.getSelection() : document.getSelection().toString()"
                        )
                        == "t.price <= s.price"
                    )
            assert texts(browser, "#answer .hint")[2] == "Look at the comparison."
            assert texts(browser, ".ask-hint") == []
            assert not [line for line in browser.get_log("browser") if line["level"] == "SEVERE"]
        finally:
            browser.execute_cdp_cmd("Emulation.setScriptExecutionDisabled", {"value": False})


# In place of the search: the first process answers once another one has begun, and the others wait.
WAITS = """
import json, os, sys, time
from pathlib import Path
place = Path({place!r})
question = json.loads(Path(sys.argv[1]).read_text())
try:
    os.close(os.open(place / "first", os.O_CREAT | os.O_EXCL))
except FileExistsError:
    (place / f"pid-{{os.getpid()}}").touch()
    time.sleep(3600)
while not list(place.glob("pid-*")):
    time.sleep(0.01)
for key in question["answers"]:
    print(json.dumps([key, dict(repairs=[], classes=[], steps=[], pair=[], decided_by="proved", fault="")]))
"""


def test_what_is_stopped_ends_at_once(
    graded: Path, tmp_path: Path, monkeypatch: pytest.MonkeyPatch
) -> None:
    """As by Ctrl-C; what was found until then is kept."""
    (tmp_path / "child.py").write_text(WAITS.format(place=str(tmp_path)))
    monkeypatch.setattr(asking, "CHILD", tmp_path / "child.py")
    given, found = Results(graded / "results").graded(exercise.load(graded))
    kept = graded / "results" / whole.FOLDER

    def interrupt() -> None:
        while not list(kept.glob("*.json")):
            time.sleep(0.01)
        os.kill(os.getpid(), signal.SIGINT)

    threading.Thread(target=interrupt).start()
    begun = time.monotonic()
    with pytest.raises(KeyboardInterrupt):
        whole.Mistakes(given).look(found, 2, False)
    assert time.monotonic() - begun < 60
    waiting = [int(path.name[4:]) for path in tmp_path.glob("pid-*")]
    assert waiting
    for process in waiting:
        with pytest.raises(ProcessLookupError):
            os.kill(process, 0)


# What a database tries: the whole way through serve, mistakes and feedback.

COUNT = (
    "SELECT d.name, COUNT(l.beer) FROM drinker d LEFT JOIN likes l ON l.drinker = d.name GROUP BY"
    " d.name"
)
OF_TRIED = f"{COUNT} HAVING COUNT(l.beer) < 4711"
COUNTED = COUNT.replace("l.beer", "*")


@pytest.fixture
def tried(beers: Path) -> Path:
    """With a task that `ratest` doesn't read, and a mark in its reference that no answer needs."""
    (beers / "6/answers").mkdir(parents=True)
    (beers / "6/reference.sql").write_text(OF_TRIED)
    (beers / "6/answers/ann.sql").write_text(COUNTED)
    (beers / "exercise.toml").write_text("hints = 3\n")
    return beers


def test_tried_hints_where_students_ask(ratest: Path, tried: Path) -> None:
    with serving(tried, "--hourly", "0", tries=True) as server:
        got = server.ask("6", COUNTED)
        assert (
            got.verdict.startswith("differs (tried) on ") and button(got) == "Where is the mistake?"
        )
        replies = [server.hint("6", COUNTED, step) for step in (1, 2, 3)]
        assert (
            button(replies[0]) == "Show the place"
            and button(replies[1]) == "What kind of mistake is it?"
            and button(replies[2]) == ""
        )
        first, here, kind = hints(replies[2])
        assert re.fullmatch(
            r"One change in .* is enough, as far as was tried: with it your query answered rightly"
            r" on \d+ parts of "
            r"these rows\.( There are other places where one change would do\.)?",
            first,
        ), first
        assert "<mark>" not in replies[0].answer and "<mark>COUNT(*)</mark>" in replies[1].answer
        assert (here, kind) == ("Here:", "Look at what is counted or computed.")
        for reply in (got, *replies):
            text = html.unescape(reply.body)
            assert "4711" not in text and "COUNT(l.beer)" not in text and "HAVING" not in text
        # Nothing is said to be proved.
        assert not any("on every part of these rows" in text for text in hints(replies[2]))
        # One that is right as far as was tried has no hints.
        assert button(server.ask("6", COUNT)) == "" and hints(server.hint("6", COUNT, 1)) == []


def test_tried_hints_in_the_feedback(ratest: Path, tried: Path) -> None:
    classroom("grade", tried)
    ran = classroom("mistakes", tried, "--task", "6")
    assert ran.returncode == 0, ran.stderr
    assert classroom("feedback", tried).returncode == 0
    page = html.unescape((tried / "results/feedback/ann.html").read_text())
    text = re.sub(r"\\(.)", r"\1", (tried / "results/feedback/ann.md").read_text())
    assert page.count("<summary>Hint ") == 3 and "<mark>COUNT(*)</mark>" in page
    for one in (page, text):
        assert "is enough, as far as was tried: with it your query answered rightly on " in one
        assert "Look at what is counted or computed." in one
        assert "4711" not in one and "COUNT(l.beer)" not in one and "HAVING" not in one


@pytest.fixture
def bars(beers: Path) -> Path:
    """A task whose answer returns a bar more than once, and one whose answer has the order of its
    rows wrong."""
    for task, reference, answer in (
        ("7", "SELECT DISTINCT bar FROM serves", "SELECT bar FROM serves"),
        (
            "8",
            "SELECT name FROM drinker ORDER BY name DESC",
            "SELECT name FROM drinker ORDER BY name",
        ),
    ):
        (beers / task / "answers").mkdir(parents=True)
        (beers / task / "reference.sql").write_text(reference)
        (beers / task / "answers/ann.sql").write_text(answer)
    (beers / "exercise.toml").write_text("hints = 3\n")
    return beers


@pytest.mark.parametrize("counts", ["report", "wrong", "ignore"])
def test_mistakes_in_duplicates_or_order_alone(ratest: Path, bars: Path, counts: str) -> None:
    """Where they are remarked on, where they count, and where neither is."""
    (bars / "exercise.toml").write_text(f'hints = 3\nduplicates = "{counts}"\norder = "{counts}"\n')
    assert classroom("grade", bars).returncode in (0, 1)
    ran = classroom("mistakes", bars)
    assert ran.returncode == 0, ran.stderr
    lines = list(
        csv.DictReader(io.StringIO((bars / "results/mistakes.csv").read_text(), newline=""))
    )
    found = {
        line["task"]: (line["mistake"], line["kind"], line["decided_by"].split()[0])
        for line in lines
        if line["task"] in "78"
    }
    assert found == (
        {}
        if counts == "ignore"
        else {
            "7": ("as the reference with DISTINCT dropped in the query", "DISTINCT", "sqlite"),
            "8": (
                "as the reference with ASC for DESC of name in the ORDER BY",
                "ORDER BY",
                "sqlite",
            ),
        }
    )
    assert classroom("feedback", bars).returncode == 0
    page = html.unescape((bars / "results/feedback/ann.html").read_text())
    assert page.count("<summary>Hint ") == (0 if counts == "ignore" else 6)
    assert (
        ("Look at rows that come more than once." in page)
        == ("Look at the order of the rows." in page)
        == (counts != "ignore")
    )
    assert "SELECT DISTINCT" not in page and "DESC" not in page


def test_hints_on_duplicates_where_students_ask(ratest: Path, bars: Path) -> None:
    with serving(bars, "--hourly", "0", tries=True) as server:
        got = server.ask("7", "SELECT bar FROM serves")
        assert (
            got.verdict == "agrees"
            and "as a set" in got.answer
            and button(got) == "Where is the mistake?"
        )
        got = server.hint("7", "SELECT bar FROM serves", 3)
        assert (
            "as far as was tried" in hints(got)[0]
            and hints(got)[2] == "Look at rows that come more than once."
        )
        assert "DISTINCT" not in got.body
        assert button(server.ask("7", "SELECT DISTINCT bar FROM serves")) == ""
