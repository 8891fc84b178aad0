"""Many students at once: real clients that ask again and again, half of them wrong, half of them
what a database has to try, and one in a hundred hostile.

SERVE_LOAD=200x300 has 200 clients for 300 seconds, each of whom thinks for two to three seconds
between two questions, and the strict bounds, for a machine of four processors that does nothing
else; without it there are 40 for six seconds, who think for one to two, and of the hostile
questions none that takes seconds. Who is told that too many ask comes again when the server says,
until there is an answer, and the time runs from the first time. """
from __future__ import annotations

import http.client
import os
import random
import shutil
import threading
import time
from collections import Counter
from collections.abc import Sequence
from dataclasses import dataclass, field
from pathlib import Path
from typing import NamedTuple

import pytest
from products import TOP
from served import Reply, Server, serving
from test_serve import HOSTILE

pytest.importorskip("flask")
pytest.importorskip("waitress")
pytest.importorskip("sqlglot")

# Every row beside every row, ten and eleven times over: seconds of work.
HEAVY = tuple(
    f"SELECT t0.drinker FROM {', '.join(f'frequents t{number}' for number in range(count))}"
    for count in (10, 11)
)
# For the database: it tries them for seconds.
ENDLESS = (
    "WITH RECURSIVE r(n) AS (SELECT 1 UNION ALL SELECT n + 1 FROM r) SELECT 'x', count(*) FROM r",
    (
        f"SELECT count(*) FROM {', '.join(f'frequents t{number}' for number in range(12))} GROUP BY"
        " t1.bar"
    ),
)
COUNT = (
    "SELECT d.name, COUNT(l.beer) FROM drinker d LEFT JOIN likes l ON l.drinker = d.name GROUP BY"
    " d.name"
)
# Of a task, a text and how its verdict begins. `ratest` refuses the reference of task 6, and of the
# others these texts.
TRIED = (
    ("6", COUNT, "no difference found (tried)"),
    (
        "6",
        "SELECT name, (SELECT COUNT(*) FROM likes WHERE drinker = name) FROM drinker",
        "no difference found (tried)",
    ),
    ("6", COUNT.replace("l.beer", "*"), "differs (tried) on 1 row: other rows"),
    ("6", COUNT.replace("LEFT JOIN", "JOIN"), "differs (tried) on 1 row: other rows"),
    ("3", "SELECT bar FROM serves GROUP BY bar HAVING COUNT(*) = 1", "no difference found (tried)"),
    ("3", "SELECT bar FROM serves GROUP BY bar HAVING COUNT(*) < 3", "differs (tried) on "),
)
VARIANTS = 200  # of each text: some were asked before, and some were not


class Bounds(NamedTuple):
    """What is seen at most: seconds until an answer, and bytes of the server's own process."""

    within: float  # of 99 in 100
    longest: float
    memory: int


# The first are for a machine with two processors that are busy with other things.
LOOSE, STRICT = Bounds(20.0, 60.0, 150_000_000), Bounds(1.0, 15.0, 150_000_000)


@dataclass
class Seen:
    """What all clients saw."""

    statuses: Counter[int] = field(default_factory=Counter)
    faults: list[str] = field(default_factory=list)
    seconds: list[float] = field(
        default_factory=list
    )  # from the first time that a question is asked to its answer
    lock: threading.Lock = field(default_factory=threading.Lock)


class Question(NamedTuple):
    """What is asked, and how its verdict begins; None where it only has to have one."""

    task: str
    text: str
    begins: str | None


def question(chosen: random.Random, hostile: Sequence[str]) -> Question:
    if chosen.random() < 0.01:
        return Question(chosen.choice("123456"), chosen.choice(hostile), None)
    more = f"\n-- {chosen.randrange(VARIANTS)}"
    if chosen.random() < 0.5:
        task, text, begins = chosen.choice(TRIED)
        return Question(task, text + more, begins)
    task, is_right = chosen.choice("12345"), chosen.random() < 0.5
    name = "reference.sql" if is_right else f"answers/{chosen.choice('abc')}.sql"
    text = (TOP / "examples/beers" / task / name).read_text()
    return Question(task, text + more, "agrees" if is_right else "differs on ")


def client(
    server: Server,
    number: int,
    thinks: tuple[float, float],
    until: float,
    hostile: Sequence[str],
    seen: Seen,
) -> None:
    chosen = random.Random(number)
    own = {"X-Forwarded-For": f"198.51.{number // 250}.{number % 250}"}
    time.sleep(chosen.uniform(0.0, thinks[1]))
    while time.monotonic() < until:
        asked = question(chosen, hostile)
        begun = time.monotonic()
        try:
            reply = answered(server, asked, own, seen)
            assert (
                reply.status == 200
                and reply.verdict.startswith(asked.begins or "")
                and reply.verdict
            ), (asked, reply.verdict)
        except (OSError, http.client.HTTPException, AssertionError) as fault:
            with seen.lock:
                seen.faults.append(repr(fault))
            continue
        with seen.lock:
            seen.seconds.append(time.monotonic() - begun)
        time.sleep(chosen.uniform(*thinks))


def answered(server: Server, asked: Question, own: dict[str, str], seen: Seen) -> Reply:
    """What comes, once it is no word that too many ask."""
    while True:
        reply = server.ask(asked.task, asked.text, own)
        with seen.lock:
            seen.statuses[reply.status] += 1
        if reply.status != 503:
            return reply
        time.sleep(float(reply.headers["Retry-After"]))


@pytest.fixture
def exercise(beers: Path) -> Path:
    """With a task that a database tries."""
    (beers / "6").mkdir()
    (beers / "6/reference.sql").write_text(COUNT)
    shutil.rmtree(beers / "grades", ignore_errors=True)
    return beers


def test_load(ratest: Path, exercise: Path) -> None:
    count, seconds = map(int, os.environ.get("SERVE_LOAD", "40x6").split("x"))
    is_strict = "SERVE_LOAD" in os.environ
    thinks, bounds = ((2.0, 3.0), STRICT) if is_strict else ((1.0, 2.0), LOOSE)
    hostile = (*HOSTILE, *HEAVY, *ENDLESS) if is_strict else HOSTILE
    seen = Seen()
    most = most_of_trials = 0
    with serving(exercise, "--proxy", "127.0.0.1", "--hourly", "0", tries=True) as server:
        until = time.monotonic() + seconds
        clients = [
            threading.Thread(target=client, args=(server, number, thinks, until, hostile, seen))
            for number in range(count)
        ]
        for thread in clients:
            thread.start()
        while time.monotonic() < until:
            time.sleep(0.5)
            most = max(most, server.resident())
            most_of_trials = max([most_of_trials, *map(server.resident, server.trials())])
        for thread in clients:
            thread.join()
        for _ in range(100):
            if server.family() == server.trials():
                break
            time.sleep(0.1)
        assert server.family() == server.trials() and len(server.trials()) == 1
        own, programs = server.processor()
        tries = sum(server.processor(server.trials()[0]))
    asked = sorted(seen.seconds)
    print(
        f"{count} clients, {seconds} s: {len(asked)} questions, {dict(seen.statuses)}, median"
        f" {asked[len(asked) // 2]:.3f} s, 99 of 100 within {asked[len(asked) * 99 // 100]:.3f} s,"
        f" longest {asked[-1]:.3f} s; the server's process has at most {most / 1e6:.0f} MB, and"
        f" beside it the one that tries {most_of_trials / 1e6:.0f} MB; of the processor a question"
        f" takes {1000 * own / len(asked):.1f} ms there, {1000 * programs / len(asked):.1f} ms by"
        f" ratest and {1000 * tries / len(asked):.1f} ms by trying"
    )
    assert not seen.faults, seen.faults[:3]
    assert set(seen.statuses) <= {200, 503} and len(asked) >= count
    assert asked[len(asked) * 99 // 100] < bounds.within
    assert asked[-1] < bounds.longest
    assert most < bounds.memory
