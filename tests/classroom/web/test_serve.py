"""The page at which a student asks, as a real server that real clients ask."""
from __future__ import annotations

import html
import json
import math
import re
import shutil
import socket
import sqlite3
import threading
import time
from collections.abc import Iterator
from contextlib import closing
from pathlib import Path
from typing import Any

import pytest
from products import TOP, classroom
from served import FORM, Server, serving

pytest.importorskip("flask")
pytest.importorskip("waitress")

from classroom.web.cache import Recent  # noqa: E402
from ratest.places import place_of  # noqa: E402
from classroom.web.visitors import SHARING, Visitors  # noqa: E402
from classroom.web.queue import Busy, Places  # noqa: E402

WRONG = (TOP / "examples/beers/3/answers/b.sql").read_text()
RIGHT = (TOP / "examples/beers/3/reference.sql").read_text()
HOSTILE = (
    "</textarea></code><script>alert(1)</script>",
    "SELECT '\x00\x01\x1b[31m\ufffe' FROM bar",
    "\u202eSELECT name FROM bar",
    "(" * 60_000,
    "SELECT name FROM bar WHERE " + "NOT " * 15_000 + "city = ''",
    "'" * 65_000,
    "{{ 7 * 7 }} {% raw %}",
    "SELECT '" + "\U0001f37a" * 16_000 + "' FROM bar",
    "-- \r\r\n\n\r",
    "SELECT * FROM bar a, bar b, bar c, bar d, bar e",
    " UNION ".join(["SELECT name FROM bar"] * 2_000),
    "../../../../etc/passwd",
    "--help",
    "-",
    "",
    ";",
)


@pytest.fixture(scope="module")
def beers_once(tmp_path_factory: pytest.TempPathFactory) -> Path:
    folder = tmp_path_factory.mktemp("served") / "beers"
    shutil.copytree(
        TOP / "examples/beers", folder, ignore=shutil.ignore_patterns("results", "teacher.html")
    )
    (folder / "3/question.txt").write_text("Which bars serve <exactly> one beer?\n")
    return folder


@pytest.fixture(scope="module")
def server(ratest: Path, beers_once: Path) -> Iterator[Server]:
    with serving(beers_once) as made:
        yield made


# What a student sees.


def test_the_form(server: Server) -> None:
    got = server.send("GET", "/")
    assert got.status == 200 and got.headers["Content-Type"] == "text/html; charset=utf-8"
    assert re.findall(r'<option value="(.)">\1</option>', got.body) == list("12345")
    assert "Which bars serve &lt;exactly&gt; one beer?" in got.body
    assert "CREATE TABLE frequents (drinker TEXT REFERENCES drinker" in got.body
    policy = dict(
        part.strip().split(" ", 1) for part in got.headers["Content-Security-Policy"].split(";")
    )
    assert policy["default-src"] == policy["base-uri"] == policy["frame-ancestors"] == "'none'"
    assert (
        policy["script-src"]
        == policy["style-src"]
        == policy["connect-src"]
        == policy["form-action"]
        == "'self'"
    )
    assert (
        got.headers["X-Content-Type-Options"] == "nosniff"
        and got.headers["Cache-Control"] == "no-store"
    )
    # All that the page asks for is here.
    assert not re.search("https?:|//", got.body)
    for name in re.findall(r'(?:src|href)="([^"]*)"', got.body):
        assert name == "data:," or server.send("GET", f"/{name}").status == 200, name


def test_differs(server: Server) -> None:
    """The rows that the README explains."""
    got = server.ask("3", WRONG)
    assert got.status == 200 and got.verdict == "differs on 5 rows"
    assert re.findall("<caption>(.*?)</caption>", got.answer) == [
        "bar",
        "beer",
        "serves",
        "Reference: 0 rows",
        "Answer: 1 row",
    ]
    assert '<td class="text">Corona</td><td class="null">NULL</td>' in got.answer
    assert '<option value="3" selected>' in got.body
    assert WRONG.split("\n")[0] in got.body


def test_agrees(server: Server) -> None:
    assert server.ask("3", RIGHT).verdict == "agrees"
    assert server.ask("3", RIGHT.replace("\n", "\r\n") + ";").verdict == "agrees"


@pytest.mark.parametrize(
    "query, told, before, marked",
    [
        (
            "SELECT name\nFROM WHERE x",
            "refused: syntax fault near byte 17 (line 2, column 6)",
            "SELECT name\nFROM ",
            "WHERE",
        ),
        (
            "SELECT 'é', (",
            "refused: syntax fault near byte 14 (line 1, column 14)",
            "SELECT &#39;é&#39;, (",
            "",
        ),
        (
            "SELECT '\U0001f37a' ? x",
            "refused: unexpected byte at 14 (line 1, column 12)",
            "SELECT &#39;\U0001f37a&#39; ",
            "?",
        ),
        (
            "SELECT 'x",
            "refused: text without end from byte 7 (line 1, column 8)",
            "SELECT ",
            "&#39;",
        ),
    ],
)
def test_the_place_of_a_fault(
    server: Server, query: str, told: str, before: str, marked: str
) -> None:
    got = server.ask("1", query)
    assert got.verdict == told
    assert f"<code>{before}<mark>{marked}</mark>" in got.answer


def test_refused_without_a_place(server: Server) -> None:
    for query, told in (
        ("SELECT count(*) FROM bar", "refused: not supported: count"),
        ("SELECT nmae FROM bar", "refused: unknown column: nmae"),
        ("SELECT * FROM bar", "refused: numbers of columns differ"),
    ):
        got = server.ask("1", query)
        assert got.verdict == told and "<mark>" not in got.answer


# What is never sent, and what is kept.

MARKS = ("of_nobody", "sesame 4711", "remark_8151", "FROM frequents of_nobody")


@pytest.fixture
def marked(beers: Path) -> Path:
    """An exercise whose reference has marks in it that no answer needs."""
    (beers / "1/reference.sql").write_text(
        "-- remark_8151\nSELECT of_nobody.drinker FROM frequents of_nobody WHERE of_nobody.bar <>"
        " 'sesame 4711'\n"
    )
    return beers


def test_the_reference_is_never_sent(ratest: Path, marked: Path) -> None:
    files = (
        "question.txt",
        "1/reference.sql",
        "results/asked.db",
        "schema.sql",
        "0.0.reference",
        "..%2f1%2freference.sql",
        "1/../1/reference.sql",
        "%2e%2e/0.0.reference",
        "static/ask.js",
        "?task=../1/reference.sql",
        "//0.0.reference",
    )
    with serving(marked) as server:
        got = [server.send("GET", f"/{name}") for name in files]
        assert [reply.status for reply in got] == [
            200 if name.startswith("?") else 404 for name in files
        ]
        got += [
            server.ask("1", query)
            for query in (
                *HOSTILE,
                "SELECT drinker FROM frequents",
                "SELECT name FROM bar",
                "SELECT of_somebody FROM bar",
                "SELECT drinker FROM likes",
                "SELECT drinker, bar FROM frequents",
                "SELECT price FROM serves",
            )
        ]
        got += [
            server.ask(task, "SELECT 1")
            for task in ("0", "../1", "0.0.reference", "1/../1", "\0", "1\n")
        ]
        texts = [reply.body + str(reply.headers) for reply in got]
    texts.append(server.errors.read_text())
    kept = [path for path in (marked / "results").rglob("*") if path.is_file()]
    assert kept
    texts += [path.read_bytes().decode("latin-1") for path in kept]
    for text in texts:
        for mark in MARKS:
            assert mark not in text


def test_a_reference_that_is_refused_later(marked: Path, stand_in: Path) -> None:
    """What is told of the reference, as a name in it, is kept from the page, the log and the
    file."""
    with serving(
        marked, ratest=stand_in, errors="classroom: task '1': no verdict: status 6\n"
    ) as server:
        assert server.ask("1", "tells of_nobody").verdict == "no verdict"
        assert not server.ask("1", "agrees").body.count("of_nobody")
    assert b"query 1: unknown column: of_nobody" not in (marked / "results/asked.db").read_bytes()


def test_what_is_asked(ratest: Path, beers: Path) -> None:
    with serving(beers) as server:
        for query in (
            WRONG,
            WRONG,
            "-- x\n" + WRONG,
            "SELECT name FROM bar",
            RIGHT,
            "SELECT",
            WRONG,
        ):
            assert (
                server.ask(
                    "3", query, {"Cookie": "visitor=Mary", "X-Forwarded-For": "192.0.2.7"}
                ).status
                == 200
            )
    with sqlite3.connect(beers / "results/asked.db") as database:
        rows = database.execute("SELECT time, task, text, verdict FROM asked").fetchall()
    assert [(task, text, verdict) for _, task, text, verdict in rows] == [
        ("3", WRONG, "differs"),
        ("3", WRONG, "differs"),
        ("3", "-- x\n" + WRONG, "differs"),
        ("3", "SELECT name FROM bar", "differs"),
        ("3", RIGHT, "agrees"),
        ("3", "SELECT", "not read"),
        ("3", WRONG, "differs"),
    ]
    assert all(re.fullmatch(r"\d{4}-\d\d-\d\dT\d\d:00Z", row[0]) for row in rows)
    content = (beers / "results/asked.db").read_bytes()
    assert b"Mary" not in content and b"192.0.2.7" not in content and b"127.0.0.1" not in content
    assert classroom("page", beers, "--asked").returncode == 0
    page = (beers / "results/asked.html").read_text()
    found = re.findall(
        r'<h3><span class="grade [a-z-]*">(.*?)</span> <span class="share">(.*?)</span>', page
    )
    assert found[0] == ("differs on 5 rows", "4 questions") and found[-1] == (
        "agrees",
        "1 question",
    )
    assert len(found) == 4 and "Asked 3 times" in page and "1 more text" in page
    assert "exactly one beer" in page  # the remark in the reference
    words = ("--asked", "--for", "students", "--output", beers / "students.html")
    assert classroom("page", beers, *words).returncode == 0
    # Of the texts those alone that differ are shown to students.
    students = html.unescape((beers / "students.html").read_text())
    assert "exactly one beer" not in students and WRONG.rstrip("\n") in students
    assert not any(line in students for line in RIGHT.splitlines() if line not in WRONG)
    # What was asked of the exercise as it was before a change is left out.
    (beers / "3/reference.sql").write_text("SELECT bar FROM serves")
    assert classroom("page", beers, "--asked").returncode == 0
    assert (
        "7 questions about an exercise that has changed since are left out."
        in (beers / "results/asked.html").read_text()
    )


def test_nothing_was_asked(beers: Path) -> None:
    ran = classroom("page", beers, "--asked")
    assert (ran.returncode, ran.stderr) == (
        1,
        f"classroom: there is no file {beers}/results/asked.db: classroom serve makes it\n",
    )


def test_where_the_file_is_full_the_oldest_questions_go(ratest: Path, beers: Path) -> None:
    with serving(beers, "--asked-size", "1") as server:
        for number in range(24):
            assert server.ask(
                "1", f"SELECT name FROM bar -- {number}{'x' * 60_000}"
            ).verdict.startswith("differs on ")
        assert server.send("GET", "/health").status == 200
    assert (beers / "results/asked.db").stat().st_size <= 1_000_000
    with closing(sqlite3.connect(beers / "results/asked.db")) as database:
        kept = [text[24:26].strip("x") for (text,) in database.execute("SELECT text FROM asked")]
    assert len(kept) > 8 and kept == [str(number) for number in range(24 - len(kept), 24)]
    assert classroom("page", beers, "--asked").returncode == 0


def test_one_visitor_fills_no_file(ratest: Path, beers: Path) -> None:
    """What is kept of each within an hour is bounded, and so is what is kept of a network."""
    with serving(beers, "--proxy", "127.0.0.1", "--user-header", "X-User") as server:
        for number in range(20):
            server.ask("1", f"SELECT name FROM bar -- {number}{'x' * 60_000}", {"X-User": "ann"})
        server.ask("1", "SELECT name FROM bar", {"X-User": "ben"})
    with closing(sqlite3.connect(beers / "results/asked.db")) as database:
        kept = [len(text) for (text,) in database.execute("SELECT text FROM asked")]
    assert sum(kept) < 1_100_000 and len(kept) == 17 and kept[-1] == 20


# How much is shown.


def test_only_the_verdict(ratest: Path, beers: Path) -> None:
    with serving(beers, "--only-verdict") as server:
        got = server.ask("3", WRONG)
        assert got.verdict == "differs" and "<table" not in got.answer and "row" not in got.answer
        assert server.ask("3", RIGHT).verdict == "agrees"
        assert (
            server.ask("3", "SELECT (").verdict
            == "refused: syntax fault near byte 8 (line 1, column 9)"
        )


def test_so_many_an_hour(ratest: Path, beers: Path) -> None:
    with serving(beers, "--hourly", "2") as server:
        first = server.ask("3", WRONG)
        assert first.verdict == "differs on 5 rows" and len(first.cookies) == 1
        cookie, *flags = first.cookies[0].split("; ")
        assert {"HttpOnly", "SameSite=Strict"} <= set(flags)
        own = {"Cookie": cookie}
        assert server.ask("1", "SELECT name FROM drinker", own).verdict.startswith("differs on ")
        third = server.ask("1", "SELECT drinker FROM likes", own)
        assert third.verdict == "differs" and "<table" not in third.answer and not third.cookies
        assert "No more counterexamples are shown to you within this hour." in third.answer
        # What was seen may be seen again, and agreement is no counterexample.
        assert server.ask("3", WRONG, own).verdict == "differs on 5 rows"
        assert server.ask("3", RIGHT, own).verdict == "agrees"
        # A cookie that was not signed here is none.
        assert server.ask("1", "SELECT drinker FROM likes", {"Cookie": "visitor=forged.0"}).cookies


def test_twenty_an_hour_where_nothing_is_said(ratest: Path, beers: Path) -> None:
    queries = [f"SELECT name FROM drinker WHERE name <> '{number}'" for number in range(21)]
    with serving(beers) as server:
        own = {"Cookie": server.send("GET", "/").cookies[0].split(";")[0]}
        assert ["<table" in server.ask("1", query, own).answer for query in queries] == [
            True
        ] * 20 + [False]
    with serving(beers, "--hourly", "0") as server:
        assert all("<table" in server.ask("1", query, own).answer for query in queries)


def test_visitors(monkeypatch: pytest.MonkeyPatch) -> None:
    """By a clock of their own."""
    clock = 1_000_000.0
    monkeypatch.setattr(time, "time", lambda: clock)
    known = Visitors(3)
    dropped = [
        known.may_see(known.visitor("", "192.0.2.7", ""), f"{number}")
        for number in range(3 * SHARING + 5)
    ]
    assert dropped == [True] * 3 * SHARING + [False] * 5
    assert known.may_see(known.visitor("", "192.0.2.8", ""), "1")
    clock += 3599
    assert not known.may_see(known.visitor("", "192.0.2.7", ""), "new")
    clock += 2
    assert known.may_see(known.visitor("", "192.0.2.7", ""), "new")
    cookie = known.visitor("", "192.0.2.9", "").cookie
    assert cookie and known.visitor(cookie, "192.0.2.9", "").cookie is None
    assert Visitors(3).visitor(cookie, "192.0.2.9", "").cookie not in (None, cookie)
    for odd in ("", ".", "a.b", "é.é", cookie[:-1], cookie + "0"):
        assert known.visitor(odd, "192.0.2.9", "").cookie is not None, odd


# Limits. A program stands for `ratest` that does what the query says.

PROGRAM = """#!/usr/bin/python3
import json, os, sys, time
text = open(sys.argv[4]).read()
with open({place!r}, "a") as log:
    log.write(json.dumps([text, sys.argv[1:], dict(os.environ), sorted(os.listdir("/sys/class/net")), open("/proc/net/dev").read()]) + "\\n")
if text.startswith("sleeps") and not ("for best" in text and sys.argv[-1] == "50"):
    time.sleep(60)
if text.startswith("fills"):
    sys.stdout.write("agree\\n" * 1_000_000)
if text.startswith("eats"):
    try:
        bytearray(3_000_000_000)
    except MemoryError:
        sys.exit(7)
if text.startswith("dies"):
    os.kill(os.getpid(), 11)
if text.startswith("tells"):
    sys.stderr.write("ratest: query 1: unknown column: of_nobody\\n")
    sys.exit(3)
if "for best" in text:
    print("undecided: 50 conflicts\\nbest so far: 1\\nbar 1: 'Joe''s', 'Durham'")
    sys.exit(4)
while text.startswith("takes") and not os.path.exists({place!r} + " may end"):
    time.sleep(0.01)
print("agree")
"""


@pytest.fixture
def stand_in(tmp_path: Path) -> Path:
    path = tmp_path / "stands for ratest"
    path.write_text(PROGRAM.replace("{place!r}", repr(str(tmp_path / "calls"))))
    path.chmod(0o755)
    return path


def calls(stand_in: Path, text: str = "") -> list[list[Any]]:
    found = [json.loads(line) for line in (stand_in.parent / "calls").read_text().splitlines()]
    return [call for call in found if call[0].startswith(text)] if text else found


def test_a_call_has_no_environment_and_no_network(beers: Path, stand_in: Path) -> None:
    with serving(beers, "--work", "9", ratest=stand_in) as server:
        assert server.ask("1", "agrees").verdict == "agrees"
    ((_, words, environment, _, devices),) = calls(stand_in, "agrees")
    # Python itself sets the one that is there.
    assert set(environment) <= {"LC_CTYPE"}
    assert [line.split(":")[0].strip() for line in str(devices).splitlines()[2:]] == ["lo"]
    assert [word for word in words if "question" not in word] == [
        "schema.sql",
        ".",
        "0.0.reference",
        "--conflicts",
        "2000",
        "--work",
        "9",
    ]


def test_time_and_the_best_rows_so_far(beers: Path, stand_in: Path) -> None:
    with serving(beers, "--time", "2", ratest=stand_in) as server:
        got = server.ask("1", "sleeps")
        assert got.verdict == "no verdict" and "There is no verdict within 2 seconds." in got.answer
        got = server.ask("1", "sleeps for best")
        assert (
            got.verdict == "differs on 1 row, perhaps on fewer" and "Best rows so far" in got.answer
        )
        assert not server.family()


def test_memory_output_and_failures(beers: Path, stand_in: Path) -> None:
    with serving(
        beers, ratest=stand_in, errors="classroom: task '1': no verdict: status -11\n" * 2
    ) as server:
        for query, told in (
            ("eats", "within the memory"),
            ("fills", "too many to be shown"),
            ("dies", "The program failed"),
            ("dies", "The program failed"),
        ):
            got = server.ask("1", query)
            assert got.verdict == "no verdict" and told in got.answer, query
        assert server.resident() < 200_000_000


def test_a_text_is_answered_from_what_is_kept(beers: Path, stand_in: Path) -> None:
    with serving(beers, ratest=stand_in) as server:
        for task, query in (
            ("1", "agrees"),
            ("1", "agrees"),
            ("2", "agrees"),
            ("1", "agrees "),
            ("1", "agrees"),
        ):
            assert server.ask(task, query).verdict == "agrees"
    assert len(calls(stand_in, "agrees")) == 3


def test_so_many_at_once(beers: Path, stand_in: Path) -> None:
    """Of eight at once one runs, three wait and four are told to ask again, at once and with their
    query."""
    with serving(
        beers, "--jobs", "1", "--queue", "3", "--proxy", "127.0.0.1", ratest=stand_in
    ) as server:
        got: list[tuple[int, float, str]] = []

        def ask(number: int) -> None:
            begun = time.monotonic()
            reply = server.ask("1", f"takes {number}", {"X-Forwarded-For": f"192.0.2.{number}"})
            got.append(
                (reply.status, time.monotonic() - begun, reply.headers.get("Retry-After", ""))
            )
            assert f"takes {number}</textarea>" in reply.body

        askers = [threading.Thread(target=ask, args=(number,)) for number in range(8)]
        for asker in askers:
            asker.start()
        for _ in range(1200):
            if len(got) == 4:
                break
            time.sleep(0.05)
        (stand_in.parent / "calls may end").touch()
        for asker in askers:
            asker.join()
    assert sorted(status for status, _, _ in got) == [200] * 4 + [503] * 4
    assert all(after == "3" for status, _, after in got if status == 503)
    with sqlite3.connect(beers / "results/asked.db") as database:
        assert database.execute("SELECT count(*) FROM asked").fetchone() == (4,)


def test_places() -> None:
    places = Places(1, 1, 0.05, math.inf)
    with places.one("anna"):
        assert places.state() == (1, 0)
        with pytest.raises(Busy):
            with places.one("ben"):
                pass
    assert places.state() == (0, 0)
    with places.one("ben"):
        pass


def test_a_second_question_waits_behind_everybodys_first() -> None:
    """Of one who asks ten times at once and three others: one at a time, and the others first."""
    places, order, may_go = Places(1, 32, 60, math.inf), [], threading.Event()

    def ask(who: str) -> None:
        with places.one(who):
            order.append(who)
            may_go.wait()

    def waiting(count: int) -> None:
        while places.state() != (1, count):
            time.sleep(0.001)

    threads = []
    for at, who in enumerate(("eager",) * 4 + ("anna", "ben", "carla")):
        threads.append(threading.Thread(target=ask, args=(who,)))
        threads[-1].start()
        waiting(at)
    may_go.set()
    for thread in threads:
        thread.join()
    assert order == ["eager", "anna", "ben", "carla", "eager", "eager", "eager"]


def test_one_takes_no_more_than_a_share_of_the_line() -> None:
    places, may_go = Places(1, 16, 60, math.inf), threading.Event()

    def ask(who: str, network: str) -> None:
        with places.one(who, network):
            may_go.wait()

    threads = [threading.Thread(target=ask, args=("eager", "net")) for _ in range(3)]
    for at, thread in enumerate(threads):
        thread.start()
        while places.state() != (1, at):
            time.sleep(0.001)
    with pytest.raises(Busy), places.one("eager", "net"):
        pass
    # Another of the same network has a place in the line still, until the network's share is full.
    others = [threading.Thread(target=ask, args=(f"{number}", "net")) for number in range(6)]
    for at, thread in enumerate(others):
        thread.start()
        while places.state() != (1, 3 + at):
            time.sleep(0.001)
    with pytest.raises(Busy), places.one("new", "net"):
        pass
    others.append(threading.Thread(target=ask, args=("anna", "elsewhere")))
    others[-1].start()
    while places.state() != (1, 9):
        time.sleep(0.001)
    may_go.set()
    for thread in (*threads, *others):
        thread.join()
    assert places.state() == (0, 0)


def test_what_takes_long_leaves_its_place() -> None:
    """To as many as there are places: what takes long then stays in one, as what comes behind it
    waits."""
    places, may_go = Places(1, 16, 60, 0.1), threading.Event()

    def ask(visitor: str) -> None:
        with places.one(visitor):
            may_go.wait()

    threads = [threading.Thread(target=ask, args=(visitor,)) for visitor in "abc"]
    for thread in threads:
        thread.start()
    while places.state() != (2, 1):
        time.sleep(0.001)
    time.sleep(1.0)
    assert places.state() == (2, 1)
    may_go.set()
    for thread in threads:
        thread.join()
    assert places.state() == (0, 0)


def test_kept() -> None:
    kept: Recent[int] = Recent(10)
    for number in range(3):
        kept.put(str(number), number, 4)
    assert [kept.get(str(number)) for number in range(3)] == [None, 1, 2]
    assert kept.get("1") == 1
    kept.put("3", 3, 4)
    assert [kept.get(key) for key in "123"] == [1, None, 3] and kept.size == 8
    kept.put("3", 4, 2)
    assert kept.get("3") == 4 and kept.size == 6
    kept.put("4", 5, 11)
    assert kept.get("4") is None and kept.size == 0


@pytest.mark.parametrize("ends", ["stop", "kill"])
def test_stopped_while_it_answers(beers: Path, stand_in: Path, ends: str) -> None:
    """What runs ends with the server, however that ends."""
    with serving(beers, ratest=stand_in) as server:
        asker = threading.Thread(target=lambda: pytest.raises(Exception, server.ask, "1", "sleeps"))
        asker.start()
        family: list[int] = []
        for _ in range(1200):
            family = server.family()
            if family and (stand_in.parent / "calls").exists() and calls(stand_in, "sleeps"):
                break
            time.sleep(0.05)
        assert family
        if ends == "kill":
            server.kill()
        else:
            assert server.stop() == 0
        asker.join()
        for _ in range(600):
            if not any(Path(f"/proc/{number}").exists() for number in family):
                break
            time.sleep(0.05)
        assert not any(Path(f"/proc/{number}").exists() for number in family)


# Hostile clients.


def test_hostile_texts(server: Server) -> None:
    for query in HOSTILE:
        got = server.ask("1", query)
        is_not_read = "The query is not read: " in got.answer
        assert got.status == 200 and bool(got.verdict) != is_not_read, query[:40]
        assert is_not_read == ("\x00" in query), query[:40]
        assert "<script>alert" not in got.body and "49 {%" not in got.body
        assert "\x00" not in got.body and "\x1b" not in got.body


@pytest.mark.parametrize(
    "method, path, body, status",
    [
        ("GET", "/../schema.sql", None, 404),
        ("GET", "/%2e%2e/%2e%2e/etc/passwd", None, 404),
        ("GET", "/ask.css/../../x", None, 404),
        ("GET", "/%7f%00%ff", None, 404),
        ("DELETE", "/", None, 405),
        ("PUT", "/", b"x", 405),
        ("POST", "/ask.js", b"", 405),
        ("POST", "/", b"", 404),
        ("POST", "/", b"task=1", 409),
        ("POST", "/", b"task=1&token=TOKEN", 200),
        ("POST", "/", b"task=1&token=TOKEN&query=%ff%fe%00", 200),
        ("POST", "/", b"task=1&token=%ff%fe%00&query=SELECT", 409),
        ("POST", "/", b"task=1&token=" + b"x" * 65_537 + b"&query=SELECT", 409),
        ("POST", "/", b"task=1&query=" + b"x" * 65_537, 413),
        ("POST", "/", b"task=1&query=" + b"%20" * 65_537, 413),
        ("POST", "/", b"task=1&query=" + b"x" * 400_000, 413),
        ("POST", "/", b"task=" + b"x" * 65_537 + b"&query=x", 404),
        ("POST", "/", b"&" * 200_000, 404),
        ("POST", "/", b"task=../1&query=SELECT", 404),
        ("POST", "/", b"task=/etc/passwd&query=SELECT", 404),
    ],
)
def test_requests(server: Server, method: str, path: str, body: bytes | None, status: int) -> None:
    token = server.token().encode()
    sent = body.replace(b"TOKEN", token) if body else body
    assert server.send(method, path, sent, FORM).status == status
    assert server.ask("3", RIGHT).verdict == "agrees"


def test_other_forms_and_headers(server: Server) -> None:
    parts = (
        b"--x\r\nContent-Disposition: form-data;"
        b' name="task"\r\n\r\n3\r\n--x\r\nContent-Disposition: form-data; name="query";'
        b' filename="../../x.sql"\r\n\r\nSELECT\r\n--x--\r\n'
    )
    assert (
        server.send("POST", "/", parts, {"Content-Type": "multipart/form-data; boundary=x"}).status
        == 409
    )
    assert server.send("GET", "/", None, {"X-Long": "x" * 20_000}).status == 431
    assert (
        server.send(
            "GET", "/", None, {"Cookie": 'visitor="; \\"; =;;;', "Host": "evil.example"}
        ).status
        == 200
    )
    for raw in (
        b"\x00\xff\r\n\r\n",
        b"GET\r\n\r\n",
        b"POST / HTTP/1.1\r\nHost: x\r\nContent-Length: -5\r\n\r\n",
        b"POST / HTTP/1.1\r\nHost: x\r\nTransfer-Encoding: chunked\r\n\r\nzz\r\n",
    ):
        with socket.create_connection(("127.0.0.1", server.port), 10) as connection:
            connection.sendall(raw)
            connection.shutdown(socket.SHUT_WR)
            got = b""
            while more := connection.recv(65_536):
                got += more
            assert got == b"" or re.match(rb"HTTP/1\.[01] [45]\d\d ", got), got
    assert server.ask("3", RIGHT).verdict == "agrees"


def test_slow_requests_hold_nobody_up(server: Server) -> None:
    """Two hundred connections that never finish their request, and one student."""
    slow = []
    try:
        for _ in range(200):
            connection = socket.create_connection(("127.0.0.1", server.port), 10)
            connection.sendall(b"POST / HTTP/1.1\r\nHost: x\r\nContent-Length: 100\r\n\r\ntask=")
            slow.append(connection)
        begun = time.monotonic()
        assert server.ask("3", RIGHT).verdict == "agrees"
        assert time.monotonic() - begun < 20
    finally:
        for connection in slow:
            connection.close()


# Words and places.


@pytest.mark.parametrize(
    "words, status, told",
    [
        (["nowhere"], 1, "classroom: there is no folder nowhere\n"),
        (["{beers}", "--port", "65536"], 2, "a number from 0 to 65535 is wanted\n"),
        (["{beers}", "--hourly", "2", "--only-verdict"], 2, "not allowed with argument --hourly\n"),
        (["{beers}", "--host", "192.0.2.1"], 1, "classroom: Cannot assign requested address\n"),
        (
            ["{beers}", "--asked-file", "/nowhere/asked.db"],
            1,
            "classroom: /nowhere/asked.db: No such file or directory\n",
        ),
    ],
)
def test_faults(ratest: Path, beers: Path, words: list[str], status: int, told: str) -> None:
    ran = classroom("serve", *[word.replace("{beers}", str(beers)) for word in words])
    assert ran.returncode == status and ran.stderr.endswith(told)


def test_a_wrong_reference_and_a_port_that_is_taken(ratest: Path, beers: Path) -> None:
    with socket.create_server(("127.0.0.1", 0)) as taken:
        ran = classroom("serve", beers, "--port", str(taken.getsockname()[1]))
    assert (ran.returncode, ran.stderr) == (1, "classroom: Address already in use\n")
    for task in "12345":
        (beers / task / "reference.sql").write_text("SELECT nmae FROM bar")
    ran = classroom("serve", beers)
    assert (
        ran.returncode == 1
        and ran.stderr.splitlines()[-1] == f"classroom: {beers}: no task can be graded"
    )


def test_a_task_whose_reference_is_refused_is_not_offered(ratest: Path, beers: Path) -> None:
    """Rule 1 of grading: the others are served."""
    (beers / "4/reference.sql").write_text("SELECT nmae FROM bar")
    told = "classroom: task 4 is not graded: reference.sql: unknown column: nmae\n"
    with serving(beers, errors=told) as server:
        page = server.send("GET", "/").body
        assert re.findall('<option value="(.*?)"', page) == ["1", "2", "3", "5"]
        assert server.ask("4", "SELECT name FROM bar").status == 404
        assert server.ask("5", "SELECT name FROM bar").verdict


def test_bytes_and_places() -> None:
    text = "é\U0001f37a\nab cd"
    for byte, line, column, marked, span in (
        (0, 1, 1, "é", (0, 1)),
        (2, 1, 2, "\U0001f37a", (1, 3)),
        (6, 1, 3, "\n", (3, 4)),
        (7, 2, 1, "ab", (4, 6)),
        (10, 2, 4, "cd", (7, 9)),
        (12, 2, 6, "", (9, 9)),
        (99, 2, 6, "", (9, 9)),
    ):
        place = place_of(text, byte)
        assert (place.line, place.column, place.marked, place.span) == (
            line,
            column,
            marked,
            span,
        ), byte
        assert place.before + place.marked + place.after == text
