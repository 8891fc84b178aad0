"""The wheel of tools/package: put into an empty virtual environment by pip without any index."""
from __future__ import annotations

import csv
import shutil
import subprocess
import tomllib
import zipfile
from pathlib import Path

import pytest

SECONDS = 300
OUTSIDE = {"PATH": "/usr/bin:/bin", "LC_ALL": "C.UTF-8"}


@pytest.fixture(scope="module")
def wheel(packages: Path) -> Path:
    found = list(packages.glob("*.whl"))
    assert len(found) == 1
    return found[0]


@pytest.fixture(scope="module")
def environment(wheel: Path, tmp_path_factory: pytest.TempPathFactory) -> Path:
    """A virtual environment with nothing but the wheel in it."""
    place = tmp_path_factory.mktemp("environment")
    made = subprocess.run(
        ["/usr/bin/python3", "-m", "venv", place], capture_output=True, text=True, timeout=SECONDS
    )
    if made.returncode:
        pytest.skip("no virtual environment: apt-get install python3-venv")
    subprocess.run(
        [
            place / "bin/pip",
            "install",
            "--no-index",
            "--quiet",
            "--disable-pip-version-check",
            wheel,
        ],
        check=True,
        timeout=SECONDS,
        env=OUTSIDE,
    )
    return place


def run(*words: str | Path) -> subprocess.CompletedProcess[str]:
    return subprocess.run(
        words, env=OUTSIDE, text=True, capture_output=True, timeout=SECONDS, cwd="/"
    )


def test_its_name_and_its_version(wheel: Path, top: Path) -> None:
    version = (top / "VERSION").read_text().strip()
    assert wheel.name == f"ratest-{version}-py3-none-linux_x86_64.whl"
    with zipfile.ZipFile(wheel) as packed:
        metadata = packed.read(f"ratest-{version}.dist-info/METADATA").decode()
    assert f"\nVersion: {version}\n" in metadata
    assert "Requires-Dist: sqlglot (<10.7,>=10.6) ; extra == 'mutants'" in metadata


def test_what_a_command_needs_is_an_extra(top: Path) -> None:
    project = tomllib.loads((top / "python/pyproject.toml").read_text())["project"]
    assert project["dependencies"] == []
    assert {"page", "serve", "mutants", "postgresql"} <= set(project["optional-dependencies"])


def test_the_programs(environment: Path, top: Path, ratest: Path, beers: str) -> None:
    packed = next(environment.glob("lib/python3*/site-packages/ratest/programs/ratest"))
    assert packed.read_bytes() == ratest.read_bytes(), "the very program that was proved"
    at = top / "examples/beers"
    ran = run(
        environment / "bin/ratest",
        at / "schema.sql",
        at,
        at / "3/reference.sql",
        at / "3/answers/b.sql",
    )
    assert (ran.returncode, ran.stdout, ran.stderr) == (1, beers, "")
    assert "build: proved\n" in run(environment / "bin/ratest", "--version").stdout
    ran = run(environment / "bin/ratest_plus", "--help")
    assert (ran.returncode, ran.stderr) == (0, "") and ran.stdout.startswith("Usage: ratest_plus ")
    ran = run(environment / "bin/ratest_plus")
    assert (ran.returncode, ran.stdout) == (2, "") and ran.stderr.startswith("Usage: ratest_plus ")


def test_the_library(environment: Path) -> None:
    code = (
        "import ratest; print(ratest.explain('CREATE TABLE t (a INT)', {'t': [[1], [2]]}, 'SELECT a"
        " FROM t', 'SELECT a FROM t WHERE a > 1'), end='')"
    )
    ran = run(environment / "bin/python", "-c", code)
    assert (ran.returncode, ran.stderr) == (0, "")
    assert ran.stdout == "witness: 1\nt 1: 1\nonly query 1: 1\n  1\nonly query 2: 0\nboth: 0\n"


def test_a_class_is_graded(environment: Path, top: Path, tmp_path: Path) -> None:
    """Without jinja2 all is graded, and what can't be written is said."""
    exercise = tmp_path / "beers"
    shutil.copytree(top / "examples/beers", exercise, ignore=shutil.ignore_patterns("results"))
    ran = run(environment / "bin/classroom", "grade", exercise)
    assert ran.returncode == 0 and "15 answers: 15 differ\n" in ran.stdout
    assert "teacher.html and students.html are not written" in ran.stderr
    # In a virtual environment, which sees nothing of Debian's.
    assert "pip install 'ratest[page]'" in ran.stderr
    with open(exercise / "results/grades.csv", encoding="utf-8", newline="") as file:
        rows = list(csv.DictReader(file))
    assert len(rows) == 15 and {row["grade"] for row in rows} == {"differs"}
    assert not (exercise / "results/teacher.html").exists()


@pytest.mark.parametrize("words", [["bin/classroom"], ["bin/python", "-m", "classroom"]])
def test_classroom_tells_its_version(environment: Path, top: Path, words: list[str]) -> None:
    ran = run(environment / words[0], *words[1:], "--version")
    version = (top / "VERSION").read_text().strip()
    assert (ran.returncode, ran.stdout, ran.stderr) == (0, f"classroom {version}\n", "")
