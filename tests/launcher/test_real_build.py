"""The launcher with the real toolchain: the build without proofs, made once for all tests of this
file.

It watches the place where `rt try` keeps the program that it runs, which the toolchain does not
document. """
from __future__ import annotations

import os
import shutil
import signal
import subprocess
import time
from dataclasses import dataclass
from pathlib import Path

import pytest

BEERS = [
    "examples/beers/schema.sql",
    "examples/beers",
    "examples/beers/3/reference.sql",
    "examples/beers/3/answers/b.sql",
]
SECONDS = 1200
FASTEST_OF = 5
BEFORE_INTERRUPT = 12
SECONDS_TO_START = 120
# Words of which the copy's main makes an index past the end of an array, which no word of the
# program does.
HEAD = "    let alloc = rt.alloc();\n"
FAULT = """    if words.as_slice().len() == 1 {
        let places = [2_u8; 4];
        return ExitCode::from(places[words.as_slice().len() * 7]);
    }
"""


@dataclass
class Built:
    """A copy of the repository whose first call has been answered in an empty home."""

    top: Path
    environment: dict[str, str]
    first: subprocess.CompletedProcess[str]
    seconds: float

    def run(self, *words: str) -> subprocess.CompletedProcess[str]:
        return subprocess.run(
            ["./ratest", *words],
            cwd=self.top,
            env=self.environment,
            text=True,
            capture_output=True,
            stdin=subprocess.DEVNULL,
            timeout=SECONDS,
        )


@pytest.fixture(scope="session")
def built(top: Path, tmp_path_factory: pytest.TempPathFactory) -> Built:
    if not shutil.which("rt"):
        pytest.skip("there is no command rt on the PATH")
    place = tmp_path_factory.mktemp("real") / "repository"
    shutil.copytree(
        top,
        place,
        ignore=shutil.ignore_patterns("out", ".git", ".*_cache", "__pycache__"),
        symlinks=True,
    )
    source = place / "crates/ratest/src/main.rt"
    text = source.read_text()
    assert text.count(HEAD) == 1
    source.write_text(text.replace(HEAD, FAULT + HEAD))
    environment = {
        "PATH": os.environ["PATH"],
        "HOME": str(tmp_path_factory.mktemp("home")),
        "TMPDIR": str(tmp_path_factory.mktemp("temporary")),
    }
    started = time.monotonic()
    first = subprocess.run(
        ["./ratest", *BEERS],
        cwd=place,
        env=environment,
        text=True,
        capture_output=True,
        stdin=subprocess.DEVNULL,
        timeout=SECONDS,
    )
    return Built(place, environment, first, time.monotonic() - started)


def running_in(temporary: str) -> list[str]:
    """The processes whose temporary folder this is, or is in it."""
    found = []
    for process in Path("/proc").glob("[0-9]*"):
        try:
            if f"TMPDIR={temporary}".encode() in (process / "environ").read_bytes():
                found.append((process / "cmdline").read_bytes().replace(b"\0", b" ").decode())
        except OSError:
            pass
    return found


def answer_in_readme(top: Path) -> str:
    """What README.md prints below the call of the beers."""
    text = (top / "README.md").read_text()
    call = (
        "$ ./ratest examples/beers/schema.sql examples/beers examples/beers/3/reference.sql"
        " examples/beers/3/answers/b.sql\n"
    )
    return text.split(call)[1].split("```")[0]


def test_first_call_answers(built: Built) -> None:
    load = os.getloadavg()[0]
    print(
        f"the first answer took {built.seconds:.0f} s; the load is {load:.1f} on"
        f" {os.cpu_count()} processors"
    )
    assert (built.first.returncode, built.first.stdout) == (1, answer_in_readme(built.top))
    assert len(built.first.stderr.splitlines()) == 2
    assert "not proved: " in built.first.stderr


def test_later_calls_are_quick_and_say_one_line(built: Built) -> None:
    fastest = float(SECONDS)
    for _ in range(FASTEST_OF):
        started = time.monotonic()
        ran = built.run(*BEERS)
        fastest = min(fastest, time.monotonic() - started)
        assert (ran.returncode, ran.stdout) == (1, answer_in_readme(built.top))
        assert ran.stderr.startswith("ratest: not proved: ") and ran.stderr.count("\n") == 1
    assert fastest < 2


def test_failed_check_has_a_status_of_its_own(built: Built) -> None:
    ran = built.run("one")
    assert ran.returncode == 71 and ran.stdout == ""
    assert "a run-time check failed" in ran.stderr.splitlines()[-1]


@pytest.mark.parametrize(
    "words",
    [
        [
            "examples/beers/schema.sql",
            "examples/beers",
            "examples/beers/3/reference.sql",
            "examples/beers/3/reference.sql",
        ],
        [
            "examples/beers/schema.sql",
            "examples/beers",
            "examples/beers/3/reference.sql",
            "README.md",
        ],
        [
            "examples/beers/schema.sql",
            "nowhere",
            "examples/beers/3/reference.sql",
            "examples/beers/3/answers/a.sql",
        ],
        ["made", "20"],
        ["made", "20", "--conflicts", "1"],
        ["made", "20", "--work", "10"],
        ["made", "401"],
        ["a", "b"],
        ["--conflicts", "x", "a", "b"],
    ],
)
def test_answers_are_those_of_the_proved_program(
    built: Built, ratest: Path, words: list[str]
) -> None:
    proved = subprocess.run(
        [ratest, *words], cwd=built.top, text=True, capture_output=True, timeout=60
    )
    ran = built.run(*words)
    notice, _, rest = ran.stderr.partition("\n")
    assert notice.startswith("ratest: not proved: ")
    assert (ran.returncode, ran.stdout, rest) == (proved.returncode, proved.stdout, proved.stderr)


def test_an_output_that_fails_ends_likewise(built: Built, ratest: Path) -> None:
    for program in (str(ratest), "./ratest"):
        ran = subprocess.run(
            ["bash", "-c", f"'{program}' made 20 >/dev/full"],
            cwd=built.top,
            env=built.environment,
            capture_output=True,
            timeout=60,
        )
        assert ran.returncode == 6


@pytest.mark.parametrize("words", [["--build"], BEERS])
def test_interrupt_leaves_nothing_behind(top: Path, tmp_path: Path, words: list[str]) -> None:
    if not shutil.which("rt"):
        pytest.skip("there is no command rt on the PATH")
    place, temporary, home = tmp_path / "repository", tmp_path / "temporary", tmp_path / "home"
    shutil.copytree(
        top,
        place,
        ignore=shutil.ignore_patterns("out", ".git", ".*_cache", "__pycache__"),
        symlinks=True,
    )
    # Sources that were never proved, so that no proof kept on this machine ends the build at once.
    with (place / "crates/rt_value/src/lib.rt").open("a") as lowest:
        lowest.write(f"\n// Only in {place}.\n")
    temporary.mkdir()
    home.mkdir()
    files = sorted(place.rglob("*"))
    started = subprocess.Popen(
        ["./ratest", *words],
        cwd=place,
        stdin=subprocess.DEVNULL,
        stderr=subprocess.PIPE,
        text=True,
        env={"PATH": os.environ["PATH"], "HOME": str(home), "TMPDIR": str(temporary)},
    )
    time.sleep(BEFORE_INTERRUPT)
    begun = time.monotonic()
    while len(running_in(str(temporary))) <= 2:
        assert started.poll() is None and time.monotonic() < begun + SECONDS_TO_START
        time.sleep(0.1)
    started.send_signal(signal.SIGINT)
    _, told = started.communicate(timeout=60)
    assert started.returncode == -signal.SIGINT
    assert told.endswith("ratest: stopped; what is proved stays so\n")
    assert (running_in(str(temporary)), os.listdir(temporary), os.listdir(home)) == ([], [], [])
    assert sorted(place.rglob("*")) == files


def test_nothing_is_left(built: Built) -> None:
    assert os.listdir(built.environment["TMPDIR"]) == []
    assert os.listdir(built.environment["HOME"]) == []
