"""./test over a command rt and tests that are made here."""
from __future__ import annotations

import os
import shutil
import subprocess
from pathlib import Path

import pytest

TESTS = """
import pytest

def test_passes(): pass
def test_fails(): assert {value}
@pytest.mark.skip(reason="there is no moon")
def test_moon(): pass
"""


@pytest.fixture
def place(top: Path, tmp_path: Path) -> Path:
    """A folder with ./test and a test that passes, one that {value} rules, and one that is
    skipped."""
    shutil.copy(top / "test", tmp_path)
    (tmp_path / "tools").mkdir()
    for tool in ("setup", "count-tests"):
        shutil.copy(top / "tools" / tool, tmp_path / "tools")
    (tmp_path / "tests").mkdir()
    (tmp_path / "bin").mkdir()
    return tmp_path


def run(place: Path, value: str, rt: str | None) -> subprocess.CompletedProcess[str]:
    (place / "tests/test_it.py").write_text(TESTS.format(value=value))
    if rt is not None:
        (place / "bin/rt").write_text(f"#!/bin/sh\n{rt}\n")
        (place / "bin/rt").chmod(0o755)
    return subprocess.run(
        ["./test"],
        cwd=place,
        env={"PATH": f"{place}/bin:/usr/bin:/bin", "HOME": str(place)},
        text=True,
        capture_output=True,
        timeout=120,
    )


def test_counts_are_sums_and_the_skipped_are_named(place: Path) -> None:
    ran = run(place, "True", 'echo "rt $*"; echo 40 passed, 0 failed')
    lines = ran.stdout.splitlines()
    assert (ran.returncode, lines[-1]) == (0, "42 passed, 0 failed, 1 skipped")
    assert lines[0] == "rt ci", "the whole gate, with no name behind it"
    assert any(
        line.startswith("test: skipped: ") and "test_moon: there is no moon" in line
        for line in lines
    )


@pytest.mark.parametrize(
    ("value", "rt", "last"),
    [
        ("False", "echo 40 passed, 0 failed", "41 passed, 1 failed, 1 skipped"),
        ("True", "echo 39 passed, 1 failed; exit 1", "41 passed, 1 failed, 1 skipped"),
        ("False", "echo 39 passed, 1 failed; exit 1", "40 passed, 2 failed, 1 skipped"),
        ("True", "echo 40 passed, 0 failed; exit 3", "2 passed, 1 failed, 1 skipped"),
        ("True", "exit 0", "2 passed, 1 failed, 1 skipped"),
        ("True", None, "2 passed, 1 failed, 1 skipped"),
    ],
)
def test_either_failure_fails_the_whole(place: Path, value: str, rt: str | None, last: str) -> None:
    ran = run(place, value, rt)
    assert (ran.returncode, ran.stdout.splitlines()[-1]) == (1, last)


def test_tests_that_do_not_load_fail(place: Path) -> None:
    (place / "tests/test_bad.py").write_text("import no_such_module\n")
    ran = run(place, "True", "echo 1 passed, 0 failed")
    assert ran.returncode == 1 and ", 1 failed" in ran.stdout.splitlines()[-1]


@pytest.fixture
def lacking(place: Path) -> Path:
    """The folder, where a package is missing, and a command apt-get that only notes its words."""
    text = (place / "tools/setup").read_text()
    (place / "tools/setup").write_text(
        text.replace("packages=(\n", "packages=(\n  no-such-package\n")
    )
    for name, said in (("apt-get", f'echo "$*" >>{place}/asked'), ("id", "echo 1000")):
        (place / "bin" / name).write_text(f"#!/bin/sh\n{said}\n")
        (place / "bin" / name).chmod(0o755)
    return place


def test_missing_packages_are_named(lacking: Path) -> None:
    """Where it does not run as root: the line that installs them, and nothing is installed."""
    ran = run(lacking, "True", "echo 1 passed, 0 failed")
    assert (
        "as root: apt-get install --no-install-recommends" in ran.stderr
        and "no-such-package" in ran.stderr
    )
    assert (
        "no-such-package" in ran.stdout and "tools/setup installs what the tests need" in ran.stdout
    )
    assert not (lacking / "asked").exists()
    checked = subprocess.run([lacking / "tools/setup", "--check"], text=True, capture_output=True)
    assert checked.returncode == 0 and "no-such-package" in checked.stdout.split()


def test_missing_packages_are_installed_by_root(lacking: Path) -> None:
    (lacking / "bin/id").write_text("#!/bin/sh\necho 0\n")
    ran = run(lacking, "True", "echo 1 passed, 0 failed")
    asked = (lacking / "asked").read_text().splitlines()
    assert (
        ran.returncode == 0
        and asked[0] == "update"
        and asked[1].startswith("install ")
        and "no-such-package" in asked[1]
    )


def test_setup_has_one_form(place: Path) -> None:
    ran = subprocess.run([place / "tools/setup", "--no"], text=True, capture_output=True)
    assert (ran.returncode, ran.stderr) == (2, "usage: tools/setup [--check]\n")
    assert os.access(place / "tools/setup", os.X_OK)
