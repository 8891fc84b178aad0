"""A build without proofs: bounded by what is resident, and called what it is."""
from __future__ import annotations

import csv
import os
import shlex
import subprocess
from pathlib import Path

import pytest
from products import TOP
from served import serving

from classroom.process import limits
from classroom.process.limits import Limits


def program(path: Path, text: str) -> str:
    """A script that counts as a build without proofs."""
    path.write_text(f"#!/usr/bin/python3\n# {limits.CHECKED.decode()}\n{text}\n")
    path.chmod(0o755)
    return str(path)


def test_what_is_resident_is_bounded(tmp_path: Path) -> None:
    maps = "import mmap; held = mmap.mmap(-1, 1 << 34)"
    few = Limits(60.0, 200)
    assert limits.run([program(tmp_path / "maps", maps)], few)[:2] == (0, b"")
    takes = "held = bytearray(b'x') * 900_000_000\nimport time; time.sleep(50)"
    assert limits.run([program(tmp_path / "takes", takes)], few).passed == "memory"
    child = f"import subprocess; subprocess.run(['/usr/bin/python3', '-c', {takes!r}])"
    assert limits.run([program(tmp_path / "child", child)], few).passed == "memory"
    waits = "import time; time.sleep(50)"
    assert limits.run([program(tmp_path / "waits", waits)], Limits(0.5, 200)).passed == "time"


@pytest.fixture
def checked(ratest: Path, tmp_path: Path) -> Path:
    """A build without proofs: the one that RATEST_UNPROVED names, else a program with its mark that
    answers as the proved one."""
    named = os.environ.get("RATEST_UNPROVED")
    if named:
        return Path(named)
    text = f'#!/bin/sh\n# {limits.CHECKED.decode()}\nexec {shlex.quote(str(ratest))} "$@"\n'
    (tmp_path / "checked").write_text(text)
    (tmp_path / "checked").chmod(0o755)
    return tmp_path / "checked"


def grade(program: Path, exercise: Path, *words: str) -> subprocess.CompletedProcess[str]:
    return subprocess.run(
        [TOP / "classroom", "grade", *words, exercise],
        env={"PATH": "/usr/bin:/bin", "RATEST": str(program)},
        capture_output=True,
        text=True,
        check=False,
    )


def test_every_verdict_of_it_says_so(beers: Path, checked: Path) -> None:
    ran = grade(checked, beers, "--only-proved")
    assert (ran.returncode, ran.stdout) == (1, "")
    assert ran.stderr == f"classroom: --only-proved: {checked} is a build without proofs\n"
    ran = grade(checked, beers)
    assert ran.stderr.splitlines()[0].startswith("classroom: not proved: ")
    with open(beers / "results/grades.csv", encoding="utf-8", newline="") as file:
        found = list(csv.DictReader(file))
    by = {line["decided_by"] for line in found if line["grade"] in ("agrees", "differs")}
    assert by == {"not proved"}


def test_the_page_for_students_says_so(beers: Path, checked: Path) -> None:
    pytest.importorskip("flask")
    pytest.importorskip("waitress")
    pytest.importorskip("limits")
    reference = (beers / "3/reference.sql").read_text()
    with serving(beers, ratest=checked, errors=None, tries=True) as server:
        for text, words in ((reference, "agrees"), ("SELECT bar FROM serves", "differs on")):
            got = server.ask("3", text)
            assert got.verdict.startswith(words)
            assert "This is not proved: a build without proofs said so." in got.answer


def ask(
    words: list[str | Path], checked: Path, plus: Path
) -> tuple[subprocess.CompletedProcess[str], list[str]]:
    """A call with both programs, and the lines in which it says what is not proved."""
    ran = subprocess.run(
        [TOP / "classroom", *words],
        env={"PATH": "/usr/bin:/bin", "RATEST": str(checked), "RATEST_PLUS": str(plus)},
        capture_output=True,
        text=True,
        check=False,
    )
    return ran, [line for line in ran.stderr.splitlines() if "not proved" in line]


def test_mutants_and_pick_say_so(ratest: Path, ratest_plus: Path, tmp_path: Path) -> None:
    pytest.importorskip("sqlglot", reason="no sqlglot: apt-get install python3-sqlglot")
    builds = []
    for program_of in (ratest, ratest_plus):
        name = tmp_path / f"{program_of.name}.unproved"
        told = f"# {limits.CHECKED.decode()}"
        name.write_text(f'#!/bin/sh\n{told}\nexec {shlex.quote(str(program_of))} "$@"\n')
        name.chmod(0o755)
        builds.append(name)
    (tmp_path / "few/1").mkdir(parents=True)
    (tmp_path / "few/schema.sql").write_text("CREATE TABLE t (id INTEGER PRIMARY KEY, a INTEGER);")
    (tmp_path / "few/t.csv").write_text("id,a\n1,2\n2,3\n3,4\n4,3\n")
    (tmp_path / "few/1/reference.sql").write_text("SELECT id FROM t WHERE a < 3")

    def checks(folder: str, programs: list[Path]) -> tuple[str, set[str]]:
        calls: list[list[str | Path]] = [
            ["mutants", tmp_path / "few"],
            ["pick", tmp_path / "few", tmp_path / folder],
        ]
        for words in calls:
            ran, lines = ask(words, programs[0], programs[1])
            assert ran.returncode == 0, ran.stderr
            unproved = [one for one in programs if one in builds]
            assert lines == [
                f"classroom: not proved: {one} is a build with run-time checks in place of proofs"
                for one in unproved
            ]
            of_build = ", by a build without proofs and not proved" in ran.stdout
            assert of_build == (programs[1] in builds), ran.stdout
            if unproved:
                ran, _ = ask([*words, "--only-proved"], programs[0], programs[1])
                assert (ran.returncode, ran.stdout) == (1, "")
                assert ran.stderr.endswith(
                    f"--only-proved: {unproved[0]} is a build without proofs\n"
                )
        with open(tmp_path / "few/mutants/mutants.csv", encoding="utf-8", newline="") as file:
            found = {line["decided_by"] for line in csv.DictReader(file)}
        return ran.stdout, found

    assert checks("one", builds)[1] == {"not proved"}
    assert checks("two", [ratest, builds[1]])[1] == {"not proved"}
    assert checks("three", [builds[0], ratest_plus])[1] == {"proved"}
    assert checks("four", [ratest, ratest_plus])[1] == {"proved"}
