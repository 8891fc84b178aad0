"""The processes that try answers: one that fails takes no other with it, and none outlives what
asked it."""
from __future__ import annotations

import logging
import os
import re
import subprocess
import sys
import time
from pathlib import Path

import pytest
import shop
from products import TOP

from classroom.grading import trials as tried
from classroom.exercise.exercise import Answer, Task
from classroom.sql.clean import CleanText
from classroom.engines import run_child as asking
from classroom.engines.run_child import Options
from classroom.verdict.verdict import Cause, NotDetermined, Refusal, Verdict

# In place of the process: it does what the answer says.
CHILD = f"""
import json, os, signal, sys, time
sys.path.insert(0, {str(TOP / "python")!r})
from pathlib import Path
from classroom.process import forkserver as forking

def answer(material, question):
    what, place = json.loads(question)["answer"].split()
    if what == "crash":
        os.kill(os.getpid(), signal.SIGSEGV)
    if what == "parent":
        os.kill(os.getppid(), signal.SIGKILL)
        time.sleep(3600)
    if what == "raise":
        raise KeyError(place)
    if what == "much":
        return b"x" * 20_000_000
    if what == "memory":
        return bytes(2_000_000_000)
    if what == "spin":
        while True:
            pass
    if what == "wait":
        Path(place).write_text(str(os.getpid()))
        time.sleep(3600)
    while what == "after" and not Path(place).exists():
        time.sleep(0.05)
    return json.dumps(dict(engine="sqlite", kind="NotDetermined", outcome=dict(reference=True, answer=True), remarks=[], doubts=[])).encode()

forking.serve(str, answer)
"""


@pytest.fixture
def child(tmp_path: Path, monkeypatch: pytest.MonkeyPatch) -> None:
    (tmp_path / "child.py").write_text(CHILD)
    monkeypatch.setattr(asking, "CHILD", tmp_path / "child.py")


def questions(**answers: str) -> dict[str, tried.Pair]:
    task = Task("1", Path("1"), reference=b"SELECT 1")
    return {
        name: tried.Question(
            task, Answer(name, CleanText(text.encode(), text.encode())), name, False
        ).pair
        for name, text in answers.items()
    }


def trial() -> tried.Trial:
    return tried.Trial(shop.material(), Options(seconds=3600.0), (), True)


def test_a_process_that_fails_takes_no_other_with_it(
    child: None, caplog: pytest.LogCaptureFixture
) -> None:
    asked = questions(ann="quick -", ben="crash -", zoe="quick -")
    with caplog.at_level(logging.WARNING):
        found = dict(tried.verdicts(trial(), asked, 1))
    assert sorted(found) == ["ann", "zoe"] and all(isinstance(of, Verdict) for of in found.values())
    assert [record.getMessage() for record in caplog.records] == [
        "task 1: the answer ben is not tried: its process ended with signal 11"
    ]


def test_what_runs_ends_with_what_asked_it(child: None, tmp_path: Path) -> None:
    """As at a Ctrl-C: else a class would wait for the time of each answer."""
    place = tmp_path / "pid"
    found = tried.verdicts(trial(), questions(ann=f"wait {place}", zoe=f"after {place}"), 2)
    assert next(found)[0] == "zoe"  # which came first, though it was asked last
    begun = time.monotonic()
    found.close()  # type: ignore[attr-defined]
    assert time.monotonic() - begun < 600
    with pytest.raises(ProcessLookupError):
        os.kill(int(place.read_text()), 0)


@pytest.mark.parametrize(
    ("what", "told"),
    [
        ("crash", "its process ended with signal 11"),
        ("raise", "its process ended with status 1: KeyError: '-'"),
        ("parent", "its process ended with signal 9"),
    ],
)
def test_one_that_ends_takes_no_other_with_it(child: None, what: str, told: str) -> None:
    """Not even the process itself: it is begun again."""
    with asking.trier(shop.material(), Options(seconds=60.0)) as made:
        with pytest.raises(asking.Failed, match=re.escape(told)):
            made.ask("-", f"{what} -")
        assert made.ask("-", "quick -").outcome == NotDetermined(True, True)


def test_what_is_too_much_is_a_limit(child: None) -> None:
    with asking.trier(shop.material(), Options(seconds=60.0)) as made:
        assert made.ask("-", "much -").outcome == Refusal(False, Cause.LIMIT, "output")
        assert made.ask("-", "memory -").outcome == Refusal(False, Cause.LIMIT, "memory")


def test_a_child_ends_where_the_time_is_over(
    child: None, tmp_path: Path, monkeypatch: pytest.MonkeyPatch
) -> None:
    monkeypatch.setattr(asking, "MORE_SECONDS", 1.0)
    with asking.trier(shop.material(), Options(seconds=0.1)) as made:
        assert made.ask("-", f"wait {tmp_path / 'pid'}").outcome == Refusal(
            False, Cause.LIMIT, "time"
        )
        assert is_gone(int((tmp_path / "pid").read_text()))
        assert made.ask("-", "quick -").outcome == NotDetermined(True, True)


def test_no_child_outlives_what_asked_it(child: None, tmp_path: Path) -> None:
    """Killed without a chance to say so."""
    place = tmp_path / "pid"
    wanted = f"wait {place}"
    asks = (
        f"import sys; sys.path[:0] = {[str(TOP / 'python'), str(TOP / 'tests/classroom')]!r}\nfrom"
        " pathlib import Path\nimport shop\nfrom classroom.engines import run_child as asking\nasking.CHILD ="
        f" Path({str(tmp_path / 'child.py')!r})\nwith asking.trier(shop.material(),"
        f" asking.Options()) as made:\n    made.ask('-', {wanted!r})\n"
    )
    process = subprocess.Popen(
        [sys.executable, "-c", asks], env={**os.environ, "TMPDIR": str(tmp_path)}
    )
    while not (place.exists() and place.read_text()):
        time.sleep(0.05)
    process.kill()
    process.wait()
    assert is_gone(int(place.read_text()))


def test_a_child_has_nothing_of_the_others(
    child: None, tmp_path: Path, monkeypatch: pytest.MonkeyPatch
) -> None:
    """Open are the three files of any process and its own question; the environment is a path and a
    locale."""
    monkeypatch.setenv("SECRET_OF_THE_SERVER", "not for children")
    with asking.trier(shop.material(), Options(seconds=60.0)) as made, asking.threads(
        made, 2
    ) as threads:
        waiting = [threads.submit(made.ask, "-", f"wait {tmp_path / name}") for name in "ab"]
        while not all(
            (tmp_path / name).exists() and (tmp_path / name).read_text() for name in "ab"
        ):
            time.sleep(0.05)
        for name in "ab":
            process = Path("/proc", (tmp_path / name).read_text())
            links = [os.readlink(link) for link in (process / "fd").iterdir()]
            assert sum(link.startswith("socket:") for link in links) == 1 and len(links) == 4, links
            assert b"SECRET" not in (process / "environ").read_bytes()
        made.close()
        for one in waiting:
            assert isinstance(one.exception(), asking.Failed)


def is_gone(process: int) -> bool:
    """Whether a process ends within half a minute."""
    for _ in range(300):
        try:
            state = Path(f"/proc/{process}/stat").read_text().rpartition(")")[2].split()[0]
        except (FileNotFoundError, ProcessLookupError):
            return True
        if state == "Z":
            return True
        time.sleep(0.1)
    return False
