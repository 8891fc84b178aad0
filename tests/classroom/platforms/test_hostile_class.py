"""What students may hand in to do harm, or by accident: every answer is accounted for, nothing
outside of the exercise is read, and a grading that is killed at any moment ends with the same
bytes."""
from __future__ import annotations

import csv
import os
import shutil
import signal
import socket
import subprocess
import time
from pathlib import Path

import pytest
from kept import same
from products import TOP, classroom

SECRET = "the key of the teacher's machine"
MANY = 10_000
LARGE = 600  # of 4 MiB each, so together more than the memory that the run gets
MEMORY = 1_500_000_000
NAMES = [
    "-rf",
    "two words",
    'it\'s "so"',
    "line\nend",
    "$(touch hacked)",
    "`x`;&|",
    "é☃",
    os.fsdecode(b"not\xffutf"),
    "{}",
    "%s",
    "a\\b",
    "*",
    "x" * 251,
    "a,b",
    "=1+1",
    "\x01\x1b[31m",
    "--help",
    "..",
    "\u202ecod",
    "\r",
    "\t",
    "@SUM(A1)",
    "{{ 7 * 7 }}",
    "<script>alert(1)<",
    "' OR 1=1 --",
]
TEXTS = {
    "wide": "SELECT name FROM bar".encode("utf-16"),
    "cut wide": b"\xff\xfeS\x00E",
    "latin": "SELECT 'ü' FROM bar".encode("latin-1"),
    "two": b"SELECT name FROM bar; SELECT city FROM bar",
    "drop": b"DROP TABLE bar",
    "attach": b"ATTACH '/etc/passwd' AS x",
    "zero": b"SELECT name\0 FROM bar",
    "deep": b"(" * 60_000,
    "nots": b"SELECT name FROM bar WHERE " + b"NOT " * 15_000 + b"city = ''",
    "quotes": b"'" * 65_000,
    "comments": b"/*" * 32_000,
    "names": b'"' * 65_000,
    "semicolons": b";" * 65_000,
    "product": b"SELECT x1.* FROM " + b", ".join(b"bar x%d" % at for at in range(1, 60)),
    "compiler": "SELECT nosuch FROM (WITH {} SELECT * FROM a39) q".format(
        ", ".join(
            ["a0 AS (SELECT name FROM bar)"]
            + [
                f"a{at} AS (SELECT * FROM a{at - 1} UNION ALL SELECT * FROM a{at - 1})"
                for at in range(1, 40)
            ]
        )
    ).encode(),
    "load": b"SELECT load_extension('/tmp/x') FROM bar",
    "pragma": b"PRAGMA writable_schema = 1",
    "empty": b"",
}


def make(folder: Path, outside: Path) -> int:
    """Writes the class beside a file outside of it, and gives the number of answers."""
    shutil.copytree(
        TOP / "examples/beers", folder, ignore=shutil.ignore_patterns("results", "*.html")
    )
    outside.mkdir()
    (outside / "secret.sql").write_text(SECRET)
    (folder / "2/reference.sql").write_text("SELECT nosuch FROM serves")
    answers = folder / "1/answers"
    targets: dict[str, str | Path] = {
        "reference": "../reference.sql",
        "schema": "../../schema.sql",
        "secret": outside / "secret.sql",
        "passwd": "/etc/passwd",
        "environment": "/proc/self/environ",
        "nothing": "nosuch",
        "loop": "loop.sql",
        "folder": outside,
        "terminal": "/dev/tty",
        "endless": "/dev/zero",
    }
    for name, target in targets.items():
        (answers / f"link {name}.sql").symlink_to(target)
    os.mkfifo(answers / "pipe.sql")
    (answers / "place.sql").mkdir()
    with socket.socket(socket.AF_UNIX) as bound:
        before = os.getcwd()
        os.chdir(answers)  # a path of a socket has at most 107 bytes
        bound.bind("socket.sql")
        os.chdir(before)
    if not os.getuid():
        os.mknod(answers / "device.sql", 0o20666, os.makedev(1, 5))
    for name in NAMES:
        (answers / f"{name}.sql").write_text("SELECT name FROM bar")
    for name, text in TEXTS.items():
        (answers / f"text {name}.sql").write_bytes(text)
    for number in range(LARGE):
        with open(folder / f"4/answers/large {number}.sql", "wb") as file:
            file.truncate(4 * 1024 * 1024)
    for number in range(MANY):
        (folder / f"5/answers/student {number}.sql").write_text(
            f"SELECT name FROM bar -- {number % 7}"
        )
    return sum(
        path.name.endswith(".sql") and not path.name.startswith(".")
        for path in folder.glob("*/answers/*")
    )


def is_read(path: Path) -> bool:
    """Whether a file was read since its time of access was set back."""
    return os.stat(path).st_atime > 0


def set_back(path: Path) -> None:
    os.utime(path, (0, time.time()))


@pytest.mark.parametrize("words", [[], ["--only-proved"]], ids=["tried", "proved"])
def test_every_answer_is_accounted_for(ratest: Path, tmp_path: Path, words: list[str]) -> None:
    """Rules 1 to 3 and 7."""
    folder, outside = tmp_path / "class", tmp_path / "outside"
    count = make(folder, outside)
    set_back(outside / "secret.sql")
    ran = subprocess.run(
        ["prlimit", f"--as={MEMORY}:unlimited", TOP / "classroom", "grade", folder, *words],
        stdin=subprocess.DEVNULL,
        capture_output=True,
        text=True,
        errors="surrogateescape",
        timeout=800,
        check=False,
    )
    assert ran.returncode == 1 and "Traceback" not in ran.stderr, ran.stderr[-2000:]
    was_read = is_read(outside / "secret.sql")
    with open(folder / "results/grades.csv", newline="", encoding="utf-8") as file:
        rows = list(csv.DictReader(file))
    assert len(rows) == count > MANY + LARGE
    found = {(row["task"], row["answer"]): row for row in rows}
    assert "1/answers/...sql is not graded: its name is not that of an answer" in ran.stderr
    links = [row for (_, name), row in found.items() if name.startswith("link ")]
    assert len(links) == 10 and all(
        (row["grade"], row["fault"]) == ("not read", "no plain file") for row in links
    )
    for name in ("pipe", "place", "socket", *(() if os.getuid() else ("device",))):
        assert (found["1", name]["grade"], found["1", name]["fault"]) == (
            "not read",
            "no plain file",
        )
    assert {row["grade"] for (task, _), row in found.items() if task == "2"} == {"not graded"}
    assert all(
        (row["grade"], row["fault"]) == ("not read", "more than 64 KiB")
        for (task, name), row in found.items()
        if name.startswith("large ")
    )
    assert sum(row["task"] == "5" and row["grade"] == "differs" for row in rows) >= MANY
    assert found["1", "text wide"]["grade"] == found["1", "text latin"]["grade"] == "differs"
    assert found["1", "text two"]["fault"] == "more than one statement"
    for name in ("drop", "attach", "pragma", "load", "cut wide", "zero"):
        assert found["1", f"text {name}"]["grade"] == "not read", name
    assert all(
        (row["points"] == "") == (row["grade"] in ("not read", "no verdict", "not graded"))
        for row in rows
    )
    # Nothing of what is outside is anywhere in the results, nor was it read.
    root = Path("/etc/passwd").read_text().splitlines()[0]
    for path in (folder / "results").rglob("*"):
        text = path.read_bytes() if path.is_file() else b""
        assert SECRET.encode() not in text and root.encode() not in text, path
    (outside / "secret.sql").read_bytes()
    if not is_read(outside / "secret.sql"):
        pytest.skip("this file system keeps no times of access, so what was opened can't be told")
    assert not was_read
    assert not (TOP / "hacked").exists() and not Path("hacked").exists()


def test_killed_at_any_of_forty_moments(ratest: Path, tmp_path: Path) -> None:
    """Over results of an earlier grading, from which some answers are gone since; each time
    anew."""
    first, second = tmp_path / "first/class", tmp_path / "second/class"
    shutil.copytree(
        TOP / "examples/beers", first, ignore=shutil.ignore_patterns("results", "*.html", "1", "4")
    )
    (first / "3/answers/gone.sql").write_text("SELECT name FROM bar")
    assert classroom("grade", first).returncode == 0
    change(first)
    shutil.copytree(first, second, symlinks=True)
    shutil.rmtree(second / "results")
    begun = time.monotonic()
    assert classroom("grade", second).returncode == 1
    whole = time.monotonic() - begun
    for moment in range(40):
        folder = tmp_path / "killed/class"
        shutil.copytree(first, folder, symlinks=True)
        process = subprocess.Popen(
            [TOP / "classroom", "grade", folder],
            stdout=subprocess.DEVNULL,
            stderr=subprocess.DEVNULL,
            start_new_session=True,
        )
        time.sleep(whole * moment / 40)
        process.send_signal(signal.SIGKILL)
        process.wait()
        assert classroom("grade", folder).returncode == 1
        same(second, folder)
        shutil.rmtree(tmp_path / "killed")


def change(folder: Path) -> None:
    """What is handed in after the first grading."""
    (folder / "3/answers/gone.sql").unlink()
    (folder / "5/answers/b.sql").unlink()
    (folder / "2/reference.sql").write_text("SELECT nosuch FROM serves")
    (folder / "3/answers/link.sql").symlink_to("../reference.sql")
    for number in range(3):
        (folder / f"5/answers/{number}.sql").write_text(
            f"SELECT name FROM bar WHERE city = '{number}'"
        )
        (folder / f"5/answers/typo {number}.sql").write_text(f"SELECT nmae{number} FROM bar")
