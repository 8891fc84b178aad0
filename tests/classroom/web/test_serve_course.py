"""The page as a university runs it: logins, a course, handing in, what stays behind, and who waits
for whom."""
from __future__ import annotations

import csv
import hashlib
import json
import os
import random
import re
import shutil
import sqlite3
import stat
import tempfile
import threading
import time
from collections.abc import Iterator, Mapping
from contextlib import closing, contextmanager
from datetime import datetime, timedelta, timezone
from pathlib import Path

import pytest
from products import TOP, classroom
from served import Reply, Server, serving

pytest.importorskip("flask")
pytest.importorskip("waitress")
pytest.importorskip("limits")

from classroom.web import questions as asked  # noqa: E402
from classroom.web import hand_ins as handedin  # noqa: E402
from classroom.web import overview  # noqa: E402
from classroom.web.course import Course  # noqa: E402
from classroom.web.hand_ins import HandIns  # noqa: E402
from classroom.exercise.window import Window  # noqa: E402
from classroom.web.login import Front, login, network  # noqa: E402

WRONG = (TOP / "examples/beers/3/answers/b.sql").read_text()
RIGHT = (TOP / "examples/beers/3/reference.sql").read_text()
PROXY = ("--proxy", "127.0.0.1", "--user-header", "X-User")


@contextmanager
def opened(path: Path) -> Iterator[sqlite3.Connection]:
    """A database, which is closed at the end, so that nothing is left in what is written ahead of
    it."""
    with closing(sqlite3.connect(path)) as database:
        with database:
            yield database


def user(name: str) -> dict[str, str]:
    return {"X-User": name}


# Who asks.


def test_a_login_header_needs_somebody_who_sends_it(beers: Path, ratest: Path) -> None:
    ran = classroom("serve", beers, "--user-header", "X-User")
    assert (ran.returncode, ran.stderr) == (
        1,
        (
            "classroom: --user-header needs --socket or --proxy: from anybody else the header is"
            " not believed\n"
        ),
    )


def test_the_server_in_front_by_its_name(ratest: Path, beers: Path) -> None:
    with serving(beers, "--proxy", "localhost", "--user-header", "X-User") as server:
        assert server.ask("3", RIGHT, user("ann")).verdict == "agrees"
    for name in ("no-such-machine.invalid", "127.0.0.1/8", "a b", "x" * 300):
        ran = classroom("serve", beers, "--port", "0", "--proxy", name)
        assert ran.returncode == 1 and "no address, and no machine of this name" in ran.stderr


def test_a_second_server_of_an_exercise_ends(ratest: Path, beers: Path) -> None:
    with serving(beers):
        ran = classroom("serve", beers, "--port", "0", "--only-proved")
        told = f"classroom: {beers}/results/asked.db: another server is at work here\n"
        assert (ran.returncode, ran.stderr) == (1, told)
    with serving(beers):
        pass


def test_the_header_of_another_peer_is_dropped(ratest: Path, beers: Path) -> None:
    """The proxy is elsewhere, so nobody here has a login, whatever is sent."""
    with serving(beers, "--proxy", "192.0.2.1", "--user-header", "X-User") as server:
        none: dict[str, str] = {}
        for headers in (
            none,
            user("ann"),
            {"X-User": "ann", "X-Forwarded-For": "192.0.2.1"},
            {"X_User": "ann"},
        ):
            assert (
                server.send("GET", "/", None, headers).status
                == server.ask("3", RIGHT, headers).status
                == 401
            )
    with serving(beers, *PROXY) as server:
        assert (
            server.send("GET", "/", None, {}).status
            == server.send("GET", "/", None, user("  ")).status
            == 401
        )
        assert "logged in as ann." in server.send("GET", "/", None, user("ann")).body


def test_an_address_is_believed_of_the_proxy_alone(ratest: Path, beers: Path) -> None:
    """Without --proxy all come from one address, so who drops the cookie meets the bound of the
    address."""
    with serving(beers, "--hourly", "1") as server:
        shown = [
            "<table"
            in server.ask(
                "1",
                f"SELECT name FROM drinker WHERE name <> '{at}'",
                {"X-Forwarded-For": f"192.0.2.{at}"},
            ).answer
            for at in range(32)
        ]
    assert shown == [True] * 30 + [False] * 2
    with serving(beers, "--hourly", "1", "--proxy", "127.0.0.1") as server:
        assert all(
            "<table"
            in server.ask(
                "1",
                f"SELECT name FROM drinker WHERE name <> '{at}'",
                {"X-Forwarded-For": f"192.0.2.{at}"},
            ).answer
            for at in range(32)
        )


def test_a_socket_with_a_mode(ratest: Path, beers: Path) -> None:
    with tempfile.TemporaryDirectory(prefix="page") as short:
        place = Path(short) / "page.sock"
        with serving(
            beers, "--user-header", "X-User", "--socket-mode", "600", socket_path=place
        ) as server:
            assert stat.S_IMODE(place.stat().st_mode) == 0o600
            assert server.send("GET", "/").status == 401
            assert server.ask("3", RIGHT, user("ann")).verdict == "agrees"


def test_names_and_networks() -> None:
    assert [
        network(address)
        for address in (
            "192.0.2.7",
            "2001:db8:1:2::7",
            "2001:db8:1:2:ffff::1",
            "::ffff:192.0.2.7",
            "localhost",
            "",
        )
    ] == ["192.0.2.7", "2001:db8:1:2::/64", "2001:db8:1:2::/64", "192.0.2.7", "localhost", ""]
    front = Front(frozenset({"127.0.0.1"}), "X-User")
    assert login({"HTTP_X_USER": "Jörg".encode().decode("latin-1")}, front) == "Jörg"
    assert [login({"HTTP_X_USER": name}, front) for name in ("a\nb", "x" * 201, "", "\x7f")] == [
        ""
    ] * 4
    assert login({"HTTP_X_USER": "ann"}, Front()) == ""


# Who waits for whom.


def test_nobody_starves_the_others(ratest: Path, beers: Path) -> None:
    """One client with 50 connections and queries that take all of their time, and 30 students. On a
    machine that is not busy each student has the answer within three seconds; a fair line is what
    makes it possible on any."""
    hostile = "SELECT t0.drinker FROM " + ", ".join(f"frequents t{number}" for number in range(9))
    ends = threading.Event()
    taken: list[float] = []
    statuses: list[int] = []

    def attack(server: Server, number: int) -> None:
        at = 0
        while not ends.is_set():
            at += 1
            try:
                server.ask("1", f"{hostile} -- {number} {at}", {"X-Forwarded-For": "192.0.2.99"})
            except OSError:
                pass

    def student(server: Server, number: int) -> None:
        own = {"X-Forwarded-For": f"198.51.100.{number}"}
        own["Cookie"] = server.send("GET", "/", None, own).cookies[0].split(";")[0]
        begun = time.monotonic()
        got = server.ask("3", f"{WRONG} -- {number}", own)
        taken.append(time.monotonic() - begun)
        statuses.append(got.status)

    with serving(
        beers, "--proxy", "127.0.0.1", "--jobs", "2", "--time", "3", "--hourly", "0"
    ) as server:
        attackers = [threading.Thread(target=attack, args=(server, number)) for number in range(50)]
        for thread in attackers:
            thread.start()
        time.sleep(1)
        students = [threading.Thread(target=student, args=(server, number)) for number in range(30)]
        for thread in students:
            thread.start()
            time.sleep(0.05)
        for thread in students:
            thread.join()
        ends.set()
        for thread in attackers:
            thread.join()
    print(f"30 students beside 50 hostile connections: longest {max(taken):.2f} s")
    assert statuses == [200] * 30
    assert max(taken) < 3 * max(1.0, os.getloadavg()[0] / len(os.sched_getaffinity(0)))


# What a verdict rests on, and what stays.


def keys(folder: Path) -> dict[str, str]:
    with opened(folder / "results/asked.db") as database:
        return dict(database.execute("SELECT key, verdict FROM text"))


def test_what_a_verdict_rests_on_is_in_its_key(ratest: Path, beers: Path, tmp_path: Path) -> None:
    other = tmp_path / "ratest"
    shutil.copy(ratest, other)
    with open(other, "ab") as file:
        file.write(b"\0")
    for words, program in (
        ((), ratest),
        ((), ratest),
        (("--time", "9"), ratest),
        (("--conflicts", "1999"), ratest),
        (("--work", "15000000"), ratest),
        ((), other),
    ):
        with serving(beers, *words, ratest=program) as server:
            assert server.ask("3", WRONG).verdict == "differs on 5 rows"
    assert len(keys(beers)) == 5
    (beers / "bar.csv").write_text((beers / "bar.csv").read_text() + "New,Durham\n")
    with serving(beers) as server:
        server.ask("3", WRONG)
    assert len(keys(beers)) == 6


PROGRAM = """#!/usr/bin/python3
import os, sys, time
if os.path.exists({slow!r}) and "SELECT" in open(sys.argv[4]).read():
    time.sleep(60)
print("agree")
"""


def test_a_time_that_ran_out_is_not_kept(beers: Path, tmp_path: Path) -> None:
    """A busy machine has no time; the next time it has, and the newest verdict counts."""
    program, slow = tmp_path / "stand in", tmp_path / "slow"
    program.write_text(PROGRAM.replace("{slow!r}", repr(str(slow))))
    program.chmod(0o755)
    with serving(beers, "--time", "1", ratest=program) as server:
        slow.touch()
        assert server.ask("1", "SELECT 1").verdict == "no verdict"
        slow.unlink()
        assert server.ask("1", "SELECT 1").verdict == "agrees"
    assert list(keys(beers).values()) == ["agrees"]


def test_questions_have_an_hour_and_go_after_so_many_days(ratest: Path, beers: Path) -> None:
    with serving(beers) as server:
        server.ask("3", WRONG)
        server.ask("3", RIGHT)
    log = beers / "results/asked.db"
    with opened(log) as database:
        assert all(
            re.fullmatch(r"\d{4}-\d\d-\d\dT\d\d:00Z", time)
            for time, in database.execute("SELECT time FROM question")
        )
        old = (datetime.now(timezone.utc) - timedelta(days=181)).strftime("%Y-%m-%dT%H:00Z")
        database.execute("UPDATE question SET time = ? WHERE id = 1", (old,))
    with serving(beers, "--keep-days", "0") as server:
        server.ask("1", RIGHT)
    assert len(keys(beers)) == 3
    with serving(beers) as server:
        server.ask("1", RIGHT)
    assert len(keys(beers)) == 2
    assert WRONG.encode() not in log.read_bytes()


def test_a_file_of_the_first_version_is_taken_on(ratest: Path, beers: Path) -> None:
    (beers / "results").mkdir()
    log = beers / "results/asked.db"
    with opened(log) as database:
        database.executescript(
            """
            CREATE TABLE text (id INTEGER PRIMARY KEY, key TEXT NOT NULL UNIQUE, task TEXT NOT NULL, text TEXT NOT NULL, verdict TEXT NOT NULL,
                status INTEGER NOT NULL, passed TEXT NOT NULL, stdout BLOB NOT NULL, stderr BLOB NOT NULL);
            CREATE TABLE question (id INTEGER PRIMARY KEY, time TEXT NOT NULL, text INTEGER NOT NULL REFERENCES text);
            INSERT INTO text VALUES (1, 'k', '3', 'SELECT 1', 'agrees', 0, '', 'agree', '');
            INSERT INTO question VALUES (1, '2026-11-30T10:11:12Z', 1);"""
        )
    with serving(beers) as server:
        server.ask("3", RIGHT)
    with opened(log) as database:
        assert database.execute("SELECT time FROM question WHERE id = 1").fetchone() == (
            "2026-11-30T10:00Z",
        )
        assert database.execute("SELECT count(*) FROM asked").fetchone() == (2,)


def test_forgetting(ratest: Path, beers: Path) -> None:
    with serving(beers, *PROXY) as server:
        server.ask("3", WRONG, user("ann"))
        server.ask("3", "SELECT 'a secret 4711'", user("ben"))
        server.ask("3", "SELECT 'handed 4712'", user("ann"), do="hand in")
    log, handed = beers / "results/asked.db", beers / "results/handed-in.db"
    with opened(log) as database:
        database.execute("UPDATE question SET time = '2026-01-01T10:00Z' WHERE id = 1")
    told = classroom("asked", beers).stdout.splitlines()
    assert (
        told[0].startswith("2 questions of 2 texts, from 2026-01-01T10:00Z to ")
        and told[1] == "1 text handed in by 1 login"
    )
    ran = classroom("asked", beers, "--forget")
    assert (
        ran.returncode == 1
        and "nothing was removed" in ran.stderr
        and "2 questions of 2 texts" in ran.stdout
    )
    assert classroom("asked", beers, "--forget", "--before", "2026-02-01", "--yes").returncode == 0
    assert (
        WRONG.splitlines()[0].encode() not in log.read_bytes()
        and b"a secret 4711" in log.read_bytes()
    )
    assert classroom("asked", beers, "--forget", "--yes").returncode == 0
    assert b"a secret 4711" not in log.read_bytes() and b"handed 4712" in b"".join(
        path.read_bytes() for path in (beers / "results").glob("handed-in.db*")
    )
    assert classroom("asked", beers, "--forget", "--hand-ins", "--yes").returncode == 0
    assert (
        b"handed 4712"
        not in b"".join(path.read_bytes() for path in (beers / "results").glob("handed-in.db*"))
        and handed.exists()
    )
    assert classroom("asked", beers).stdout.splitlines() == [
        "0 questions of 0 texts",
        "0 texts handed in by 0 logins",
    ]
    assert classroom("asked", beers, "--forget", "--before", "2026-2-1").returncode == 2


def test_no_log_has_a_name_or_an_address(ratest: Path, beers: Path) -> None:
    """At any level, and where a request fails too."""
    with serving(beers, *PROXY, "--verbose") as server:
        for number in range(3):
            server.ask("3", WRONG, {"X-User": "ann4711", "X-Forwarded-For": "192.0.2.77"})
        server.send(
            "POST",
            "/",
            b"\xff" * 10,
            {
                "X-User": "ann4711",
                "X-Forwarded-For": "192.0.2.77",
                "Content-Type": "multipart/form-data",
            },
        )
        server.send("GET", "/nowhere", None, {"X-User": "ann4711"})
        server.errors.read_text()
        text = server.errors.read_text()
        server.errors.write_text("")
    assert "ann4711" not in text and "192.0.2.77" not in text and "127.0.0.1" not in text
    for path in (beers / "results").iterdir():
        assert b"ann4711" not in path.read_bytes() and b"192.0.2.77" not in path.read_bytes(), path


def test_about_tells_the_options(ratest: Path, beers: Path) -> None:
    with serving(beers) as server:
        page = server.send("GET", "/about").body
        assert (
            "removed after 180 days" in page
            and "At most 20 counterexamples an hour" in page
            and "no login" in page
        )
        assert 'href="about"' in server.send("GET", "/").body
    with serving(beers, *PROXY, "--keep-days", "0", "--only-verdict", "--time", "4") as server:
        page = server.send("GET", "/about").body
        assert (
            "until the teacher removes it" in page
            and "and no rows" in page
            and "kept with your login" in page
            and "4 seconds" in page
        )


# Nothing of the reference by a side door.


def test_a_limit_has_no_numbers(ratest: Path, beers: Path) -> None:
    with serving(beers, "--work", "100") as server:
        got = server.ask("1", "SELECT f.drinker FROM frequents f, serves s, likes l")
        assert got.verdict == "passes a limit" and not re.search(
            r"\d", got.answer.split("</h2>")[1]
        )


# A course.


@pytest.fixture
def course(tmp_path: Path) -> Path:
    """Two exercises and a folder that is none."""
    place = tmp_path / "course of SQL"
    for name, title in (("1 first", "The first"), ("2 second", "")):
        shutil.copytree(
            TOP / "examples/beers",
            place / name,
            ignore=shutil.ignore_patterns("results", "teacher.html", "answers"),
        )
        if title:
            (place / name / "exercise.toml").write_text(
                f'title = "{title}"\n[task.3]\ntitle = "Bars of <one> beer"\n'
            )
    (place / "1 first/3/question.txt").write_text(
        "Which bars serve *exactly* one beer?\n\n- <b>no tag</b>\n- ![a"
        " picture](https://example.org/x.png)\n"
    )
    (place / "notes").mkdir()
    return place


def test_a_course(ratest: Path, course: Path) -> None:
    with serving(course) as server:
        top = server.send("GET", "/").body
        assert re.findall(r'<li><a href="(.*?)">(.*?)</a>', top) == [
            ("e/1%20first/", "The first"),
            ("e/2%20second/", "2 second"),
        ]
        page = server.send("GET", "/e/1%20first/").body
        assert (
            "<em>exactly</em>" in page
            and "&lt;b&gt;no tag&lt;/b&gt;" in page
            and '<img src="http' not in page
            and "Bars of &lt;one&gt; beer" in page
        )
        # The tables with their rows, and how they belong together.
        count = len((course / "1 first/bar.csv").read_text().splitlines()) - 1
        assert f"<caption>bar: {count} rows</caption>" in page and "<td>Grupo Modelo</td>" in page
        if shutil.which("dot"):
            drawing = server.send("GET", "/e/1%20first/relations.svg")
            assert drawing.status == 200 and drawing.headers["Content-Type"].startswith(
                "image/svg+xml"
            )
            assert (
                drawing.body.startswith("<svg")
                and drawing.body.count('class="edge"') == 6
                and "frequents" in drawing.body
            )
        assert server.ask("3", WRONG, at="/e/1%20first/").verdict == "differs on 5 rows"
        assert server.ask("3", RIGHT, at="/e/2%20second/").verdict == "agrees"
        assert server.ask("3", RIGHT, at="/e/notes/").status == server.ask("3", RIGHT).status == 404
        for path in (
            "/e/notes/",
            "/e/..%2f1%20first/",
            "/e/1%20first/schema.sql",
            "/e/1%20first/../x/",
            "/relations.svg",
        ):
            assert server.send("GET", path).status == 404, path
        for name in re.findall(r'(?:src|href)="((?:\.\./)*[^"#]*)"', page):
            # A link of a question's text is none that the page loads.
            if name != "data:," and not name.startswith("https://"):
                assert (
                    server.send(
                        "GET",
                        (
                            f"/{name.replace('../', '')}"
                            if name.startswith("../")
                            else f"/e/1%20first/{name}"
                        ),
                    ).status
                    == 200
                ), name
    assert [len(keys(course / name)) for name in ("1 first", "2 second")] == [1, 1]


def test_what_is_asked_of_a_course_in_a_folder(ratest: Path, course: Path, tmp_path: Path) -> None:
    with serving(course, "--asked-file", str(tmp_path / "kept")) as server:
        server.ask("3", RIGHT, at="/e/1%20first/")
    assert sorted(path.name for path in (tmp_path / "kept").iterdir() if path.suffix == ".db") == [
        "1 first.db",
        "2 second.db",
    ]
    assert not (course / "1 first/results").exists()


@pytest.mark.parametrize(
    ("one", "other", "file"),
    [("a", "a-handed-in", "a-handed-in.db"), ("asked", "handed-in", "handed-in.db")],
)
def test_exercises_that_would_share_a_file(
    ratest: Path, course: Path, tmp_path: Path, one: str, other: str, file: str
) -> None:
    (course / "1 first").rename(course / one)
    (course / "2 second").rename(course / other)
    ran = classroom(
        "serve", course, "--port", "0", "--only-proved", "--asked-file", tmp_path / "kept"
    )
    assert (ran.returncode, ran.stdout) == (1, "")
    assert (
        ran.stderr
        == f"classroom: --asked-file: the exercises {one} and {other} would share {file}: rename"
        " one of them\n"
    )
    assert not list((tmp_path / "kept").iterdir())


def moment(hours: float) -> str:
    return (datetime.now(timezone.utc) + timedelta(hours=hours)).isoformat(timespec="seconds")


def test_before_it_opens_and_after_it_closes(ratest: Path, course: Path) -> None:
    (course / "1 first/exercise.toml").write_text(f"opens = {moment(1)}\n")
    (course / "2 second/exercise.toml").write_text(
        f'closes = {moment(-1)}\nafter_close = "reference"\n'
    )
    reference = "SELECT bar FROM serves EXCEPT"
    with serving(course, *PROXY) as server:
        ann = user("ann")
        top = server.send("GET", "/", None, ann).body
        assert "<li>1 first" in top and ", opens on " in top and ", closed on " in top
        before = server.send("GET", "/e/1%20first/", None, ann).body
        assert "<form" not in before and "CREATE TABLE" not in before and "Opens on " in before
        assert server.ask("3", RIGHT, ann, at="/e/1%20first/").status == 404
        assert server.send("GET", "/e/1%20first/relations.svg", None, ann).status == 404
        after = server.send("GET", "/e/2%20second/", None, ann).body
        assert reference in after and "Hand in" not in after and "Closed on " in after
        assert server.ask("3", RIGHT, ann, at="/e/2%20second/").verdict == "agrees"
        assert server.ask("3", RIGHT, ann, at="/e/2%20second/", do="hand in").status == 403
    (course / "2 second/exercise.toml").write_text(
        f'closes = {moment(-1)}\nafter_close = "nothing"\n'
    )
    (course / "1 first/exercise.toml").write_text(
        f'closes = {moment(1)}\nafter_close = "reference"\n'
    )
    with serving(course) as server:
        for name in ("1%20first", "2%20second"):
            assert reference not in server.send("GET", f"/e/{name}/").body


def test_windows() -> None:
    at = datetime(2026, 11, 20, 8, tzinfo=timezone.utc)
    window = Window(at, at + timedelta(hours=1))
    assert [window.state(at + timedelta(minutes=minutes)) for minutes in (-1, 0, 30, 60, 61)] == [
        "before",
        "open",
        "open",
        "open",
        "after",
    ]
    assert Window().state() == "open"


# Handing in.


def receipt_of(got: Reply) -> str:
    found = re.search(r'<code class="digest">([0-9a-f]{64})</code>', got.answer)
    return found[1] if found else ""


def test_handing_in(ratest: Path, beers: Path) -> None:
    (beers / "exercise.toml").write_text(f"closes = {moment(1)}\n")
    shutil.rmtree(beers / "3/answers")
    with serving(beers, *PROXY) as server:
        assert "Hand in</button>" in server.send("GET", "/", None, user("ann")).body
        for name, text in (
            ("ann", "SELECT 1"),
            ("ann", WRONG),
            ("jörg".encode().decode("latin-1"), RIGHT),
            ("a/b", "SELECT 2"),
        ):
            got = server.ask("3", text, user(name), do="hand in")
            assert (
                got.status == 200 and receipt_of(got) == hashlib.sha256(text.encode()).hexdigest()
            )
        assert server.ask("3", "x" * 65_537, user("ann"), do="hand in").status == 413
        assert server.ask("9", "SELECT 1", user("ann"), do="hand in").status == 404
    assert stat.S_IMODE((beers / "results/handed-in.db").stat().st_mode) == 0o600
    ran = classroom("collect", "--asked", beers)
    assert ran.returncode == 1 and "not placed: a/b, task 3" in ran.stderr
    assert {path.stem: path.read_text() for path in (beers / "3/answers").iterdir()} == {
        "ann": WRONG,
        "jörg": RIGHT,
    }
    with open(beers / "class/collected.csv", encoding="utf-8", newline="") as file:
        assert {row["source"] for row in csv.DictReader(file)} == {"the page"}


def test_another_site_hands_nothing_in(ratest: Path, beers: Path) -> None:
    """A browser sends the login of whoever opens a hostile page, and says where the form comes
    from."""
    with serving(beers, *PROXY) as server:
        for site, status in (
            ("cross-site", 403),
            ("same-site", 403),
            ("same-origin", 200),
            ("none", 200),
        ):
            got = server.ask(
                "3", f"SELECT '{site}'", {**user("ann"), "Sec-Fetch-Site": site}, do="hand in"
            )
            assert (got.status, bool(receipt_of(got))) == (status, status == 200)
    with opened(beers / "results/handed-in.db") as database:
        assert [text for text, in database.execute("SELECT text FROM handed_in")] == [
            "SELECT 'same-origin'",
            "SELECT 'none'",
        ]


def test_what_comes_after_the_deadline_does_not_count(tmp_path: Path) -> None:
    made = HandIns(tmp_path / "h.db")
    first = made.put("ann", "3", "in time")
    made.put("ann", "3", "too late")
    made.close()
    with opened(tmp_path / "h.db") as database:
        database.execute(
            "UPDATE handed_in SET time = ? WHERE text = 'too late'",
            ((first.time + timedelta(seconds=61)).isoformat(),),
        )
    assert [
        one.text
        for one in handedin.last_before(tmp_path / "h.db", first.time + timedelta(seconds=60))
    ] == ["in time"]
    assert [one.text for one in handedin.last_before(tmp_path / "h.db", None)] == ["too late"]


def test_so_many_hand_ins_are_kept(tmp_path: Path) -> None:
    made = HandIns(tmp_path / "h.db")
    for number in range(handedin.MOST + 5):
        made.put("ann", "3", str(number))
    made.put("ben", "3", "of ben")
    made.close()
    with opened(tmp_path / "h.db") as database:
        assert database.execute(
            "SELECT count(*), min(CAST(text AS INTEGER)) FROM handed_in WHERE login = 'ann'"
        ).fetchone() == (handedin.MOST, 5)


def test_times_are_those_of_the_exercise(ratest: Path, beers: Path) -> None:
    (beers / "exercise.toml").write_text(
        'timezone = "Asia/Kathmandu"\ncloses = 2999-01-01T12:00:00+00:00\n'
    )
    with serving(beers, *PROXY) as server:
        page = server.send("GET", "/", None, user("ann")).body
        assert "Closes on 2999-01-01 at 17:45 UTC+05:45." in page
        got = server.ask("3", RIGHT, user("ann"), do="hand in")
        told = re.search(r"was handed in on (\S+ at \S+) UTC\+05:45\.", got.answer)
        assert told
        local = datetime.strptime(told[1], "%Y-%m-%d at %H:%M") - timedelta(hours=5, minutes=45)
        assert abs(local - datetime.now(timezone.utc).replace(tzinfo=None)) < timedelta(minutes=10)
    for wrong in ("Europe/Nowhere", "../etc/passwd", "/etc/localtime", ""):
        (beers / "exercise.toml").write_text(f'timezone = "{wrong}"\n')
        ran = classroom("serve", beers, "--port", "0")
        told_wrong = "timezone: the name of a time zone is wanted, as Europe/Berlin"
        assert ran.returncode == 1 and told_wrong in ran.stderr, wrong


def test_without_a_login_nothing_is_handed_in(ratest: Path, beers: Path) -> None:
    with serving(beers) as server:
        assert "Hand in" not in server.send("GET", "/").body
        assert server.ask("3", RIGHT, do="hand in").status == 404
    assert not (beers / "results/handed-in.db").exists()


def test_a_server_that_is_killed_loses_no_hand_in(ratest: Path, beers: Path) -> None:
    """At 20 moments: each text whose receipt was seen is there."""
    chosen = random.Random(63)
    seen: dict[str, str] = {}
    for at in range(20):
        with serving(beers, *PROXY) as server:
            killer = threading.Timer(chosen.random() * 0.4, server.kill)
            killer.start()
            for number in range(200):
                text = f"SELECT {at} -- {number}"
                try:
                    got = server.ask("3", text, user(f"s{number}"), do="hand in")
                except Exception:
                    break
                assert receipt_of(got)
                seen[f"s{number}"] = text
            killer.join()
    found = {
        one.login: one.text for one in handedin.last_before(beers / "results/handed-in.db", None)
    }
    # What was written just before the end has no receipt, and may be there as well.
    assert len(seen) > 3
    order = [f"SELECT {at}" for at in range(20)]
    for name, text in seen.items():
        assert order.index(found[name].partition(" -- ")[0]) >= order.index(
            text.partition(" -- ")[0]
        ), (name, text, found[name])


# For the teacher, for a monitor, and in a platform.


def test_health(ratest: Path, beers: Path) -> None:
    with serving(beers) as server:
        server.ask("3", WRONG)
        got = server.send("GET", "/health")
        told = json.loads(got.body)
    assert got.status == 200 and set(told) == {
        "status",
        "running",
        "waiting",
        "exercises",
        "free_bytes",
        "kept",
    }
    assert (told["status"], told["running"], told["waiting"], told["exercises"], told["kept"]) == (
        "ok",
        0,
        0,
        1,
        True,
    ) and told["free_bytes"] > 0


def at_teacher(server: Server, path: str) -> Reply:
    return Server(server.process, server.teacher, server.errors).send("GET", path)


def test_the_page_of_the_teacher(ratest: Path, course: Path) -> None:
    with serving(course, "--teacher-port", "0", *PROXY) as server:
        for query in (
            WRONG,
            WRONG,
            RIGHT,
            "SELECT count(*) FROM bar",
            "SELECT nmae FROM bar",
            "SELECT x FROM bar",
        ):
            server.ask("3", query, user("ann"), at="/e/1%20first/")
        page = at_teacher(server, "/").body
        assert (
            "6 questions" in page
            and '<th scope="row">not supported: count</th><td class="number">1</td>' in page
        )
        assert (
            '<th scope="row">unknown column</th><td class="number">2</td>' in page
            and "ann" not in page.replace("answer", "")
        )
        mistakes = at_teacher(server, "/mistakes/1%20first")
        assert (
            mistakes.status == 200
            and "differs on 5 rows" in mistakes.body
            and "2 questions" in mistakes.body
        )
        assert (
            at_teacher(server, "/mistakes/x").status == 404
            and at_teacher(server, "/health").status == 200
        )
        # It is at this machine alone.
        for path in ("/mistakes/1%20first", "/teacher"):
            assert server.send("GET", path, None, user("ann")).status == 404
        listening = [
            line.split()[1]
            for line in Path("/proc/net/tcp").read_text().splitlines()[1:]
            if line.split()[3] == "0A"
        ]
        assert (
            f"0100007F:{server.teacher:04X}" in listening
            and f"00000000:{server.teacher:04X}" not in listening
        )


def test_the_page_of_the_teacher_has_no_other_name() -> None:
    """A site whose name leads to 127.0.0.1 would else read it in the teacher's browser."""
    client = overview.application(Course("c", ()), {}).test_client()
    for host, status in (
        ("127.0.0.1:8001", 200),
        ("localhost:9000", 200),
        ("evil.example:8001", 400),
        ("127.0.0.1.evil.example", 400),
    ):
        assert client.get("/", headers={"Host": host}).status_code == status


def policy(headers: Mapping[str, str]) -> dict[str, str]:
    return dict(
        part.strip().split(" ", 1) for part in headers["Content-Security-Policy"].split(";")
    )


def test_in_a_frame_of_a_platform(ratest: Path, beers: Path) -> None:
    sites = ("https://moodle.example.org", "https://*.school.example")
    with serving(beers, "--frame-ancestors", sites[0], "--frame-ancestors", sites[1]) as server:
        got = server.send("GET", "/")
    assert (
        policy(got.headers)["frame-ancestors"] == " ".join(sites)
        and "X-Frame-Options" not in got.headers
    )
    assert got.cookies[0].split("; ")[1:] == [
        "Path=/",
        "HttpOnly",
        "Secure",
        "SameSite=None",
        "Partitioned",
    ]
    with serving(beers) as server:
        got = server.send("GET", "/")
    assert (
        policy(got.headers)["frame-ancestors"] == "'none'"
        and got.headers["X-Frame-Options"] == "DENY"
    )
    assert "SameSite=Strict" in got.cookies[0] and "Partitioned" not in got.cookies[0]
    for word in ("*", "moodle.example.org", "https://a; script-src *", "'self'"):
        assert classroom("serve", beers, "--frame-ancestors", word).returncode == 2


def test_a_page_is_three_requests(ratest: Path, beers: Path) -> None:
    """Itself, one style and one script, which has the editor where that is installed."""
    with serving(beers) as server:
        there = Path("/usr/share/javascript/codemirror").is_dir()
        links = re.findall(r'(?:href|src)="([^"#]*)"', server.send("GET", "/").body)
        files = [link for link in links if link.startswith("ask.")]
        assert [link.partition("?")[0] for link in files] == ["ask.css", "ask.js"]
        assert not [link for link in links if link.endswith((".js", ".css"))]
        for link in files:
            got = server.send("GET", f"/{link}")
            assert got.status == 200 and ("CodeMirror" in got.body) == there
            assert got.headers["Cache-Control"].startswith("public, max-age=")
        for name in ("package.json", "../jquery/jquery.js", "lib/codemirror.js", "%00"):
            assert server.send("GET", f"/codemirror/{name}").status == 404, name


def test_slow_bodies_end() -> None:
    """What waitress bounds by itself: a connection on which nothing comes. One that drips is
    nginx's to end, as the example says."""
    text = (TOP / "examples/server/nginx.conf").read_text()
    assert re.search(r"client_header_timeout \d+s;", text) and re.search(
        r"client_body_timeout \d+s;", text
    )
    assert not (TOP / "python/classroom/server/slow.py").exists()


def test_foundations_differ() -> None:
    parts = ["exercise", "program", "engine", ["60", "--conflicts"]]
    made = {asked.foundation_of(*parts)}  # type: ignore[arg-type]
    for at in range(3):
        other = [*parts]
        other[at] = "x"
        made.add(asked.foundation_of(*other))  # type: ignore[arg-type]
    assert len(made) == 4
