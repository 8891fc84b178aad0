"""`--build` proves the programs before a command: with a repository in which a command `rt` that
proves nothing stands for the real one."""
from __future__ import annotations

import csv
import os
import shlex
import shutil
import signal
import subprocess
import sys
import time
from pathlib import Path

import pytest
from products import TOP

from classroom.main import parser

sys.path.insert(0, str(TOP / "tests/launcher"))
from small_repository import Repository, repository  # noqa: E402

__all__ = ["repository"]


@pytest.fixture
def cloned(repository: Repository, ratest: Path, beers: Path) -> Repository:
    """A repository with `classroom` in it, whose proved program answers as `ratest` does."""
    skipped = shutil.ignore_patterns("__pycache__", ".mypy_cache")
    shutil.copytree(TOP / "python", repository.top / "python", ignore=skipped)
    shutil.copy(TOP / "classroom", repository.top)
    shutil.copytree(beers, repository.top / "beers")
    tools = repository.top.parent / "bin"
    (tools / "rt").unlink()
    shutil.copy(TOP / "tests/launcher/fake_rt", tools / "rt")
    (tools / "fake_program").write_text(f'#!/bin/sh\nexec {shlex.quote(str(ratest))} "$@"\n')
    return repository


def test_it_is_proved_first(cloned: Repository) -> None:
    ran = cloned.run("grade", "--build", "--only-proved", "beers", program="./classroom")
    assert ran.returncode == 0, ran.stderr
    assert cloned.calls() == ["ci"] and "proves and builds the program" in ran.stderr
    with open(cloned.top / "beers/results/grades.csv", encoding="utf-8", newline="") as file:
        decided = {line["decided_by"] for line in csv.DictReader(file)}
    assert "proved" in decided and "not proved" not in decided
    # What is proved is not proved again.
    ran = cloned.run("grade", "--build", "--only-proved", "beers", program="./classroom")
    assert ran.returncode == 0 and cloned.calls() == ["ci"]
    assert ran.stderr.startswith("ratest: is proved and built\n")


def test_what_is_not_proved_grades_nothing(cloned: Repository) -> None:
    ran = cloned.run("grade", "--build", "beers", program="./classroom", FAKE_FAILS="ci")
    assert ran.returncode == 1 and ran.stdout == "" and cloned.calls() == ["ci"]
    assert ran.stderr.endswith("classroom: --build: ratest is not proved and built\n")
    assert not (cloned.top / "beers/results/grades.csv").exists()


def test_a_program_that_is_named_is_not_built(cloned: Repository, ratest: Path) -> None:
    ran = cloned.run(
        "grade", "--build", "beers", program="./classroom", RATEST=str(ratest.absolute())
    )
    assert (ran.returncode, ran.stdout) == (1, "") and cloned.calls() == []
    assert ran.stderr == "classroom: --build: the variable RATEST names the program that is taken\n"


@pytest.mark.parametrize("number", [signal.SIGTERM, signal.SIGKILL, signal.SIGINT])
def test_a_build_ends_with_the_command(cloned: Repository, number: signal.Signals) -> None:
    started: subprocess.Popen[str] = cloned.start(
        "grade", "--build", "beers", program="./classroom", FAKE_SECONDS="600"
    )
    cloned.wait_for_calls(["ci"])
    os.kill(started.pid, number)
    started.communicate(timeout=60)
    assert started.returncode != 0
    end = time.monotonic() + 60
    while cloned.processes():
        assert time.monotonic() < end, cloned.processes()
        time.sleep(0.05)


def test_each_command_that_asks_a_program_has_it() -> None:
    wanted = {
        "grade": ("ratest",),
        "mistakes": ("ratest_plus",),
        "mutants": ("ratest", "ratest_plus"),
        "pick": ("ratest", "ratest_plus"),
        "serve": ("ratest", "ratest_plus"),
    }
    for name, names in wanted.items():
        words = [name, *(["rows"] if name == "pick" else []), "exercise"]
        assert parser().parse_args([*words, "--build"]).build == names
        assert parser().parse_args(words).build == ()
