"""Types are checked by mypy, scripts of the shell by shellcheck, and the layers of `classroom` by
its imports."""
from __future__ import annotations

import ast
import os
import shutil
import subprocess
from collections.abc import Iterator
from pathlib import Path

import pytest

TESTS = Path(__file__).resolve().parent
ROOMS = sorted(
    path.name
    for path in (TESTS / "classroom").iterdir()
    if path.is_dir() and path.name != "__pycache__"
)
# The folder in which mypy runs, and what it checks there. Modules of these folders are found too.
CHECKED = [
    ("python", ["classroom", "ratest"]),
    ("tests", ["compare", *(path.name for path in sorted(TESTS.glob("*.py")))]),
    # Each folder with a conftest.py of its own.
    *((f"tests/{path.parent.name}", ["."]) for path in sorted(TESTS.glob("*/conftest.py"))),
    ("tools", ["web"]),
]
FOUND = (
    "python",
    "tests",
    "tests/classroom",
    *(f"tests/classroom/{name}" for name in ROOMS),
    "tests/launcher",
    "tools",
)
# What black and flake8 look at.
PYTHON = ("python", "tools", "tests")
# What black writes; and texts that it leaves long, as SQL in tests.
PASSED = "E203,W503,E501"
SCRIPTS = [".ci/run", "bench/classroom", "bench/run", "tests/mutants"]


@pytest.mark.parametrize("folder, checked", CHECKED, ids=[folder for folder, _ in CHECKED])
def test_types(folder: str, checked: list[str], top: Path, tmp_path: Path) -> None:
    if not shutil.which("mypy"):
        pytest.skip("there is no mypy: apt-get install mypy")
    # Debian's mypy, which sees Debian's packages.
    done = subprocess.run(
        [
            "/usr/bin/python3",
            "-m",
            "mypy",
            "--strict",
            "--explicit-package-bases",
            f"--cache-dir={tmp_path}",
            f"--config-file={top / 'python/pyproject.toml'}",
            *checked,
        ],
        cwd=top / folder,
        capture_output=True,
        text=True,
        check=False,
        env={**os.environ, "MYPYPATH": ":".join(str(top / it) for it in FOUND)},
    )
    assert done.returncode == 0, done.stdout


def test_format(top: Path) -> None:
    if not shutil.which("black"):
        pytest.skip("there is no black: apt-get install black")
    done = subprocess.run(
        ["/usr/bin/python3", "-m", "black", "--check", "-q", "-l", "100", *PYTHON],
        cwd=top,
        capture_output=True,
        text=True,
        check=False,
    )
    assert done.returncode == 0, "black -l 100 " + " ".join(PYTHON)


def test_flake8(top: Path) -> None:
    if not shutil.which("flake8"):
        pytest.skip("there is no flake8: apt-get install flake8")
    done = subprocess.run(
        [
            "/usr/bin/python3",
            "-m",
            "flake8",
            "--max-line-length",
            "100",
            f"--extend-ignore={PASSED}",
        ]
        + [*PYTHON],
        cwd=top,
        capture_output=True,
        text=True,
        check=False,
    )
    assert done.returncode == 0, done.stdout


def test_scripts(top: Path) -> None:
    if not shutil.which("shellcheck"):
        pytest.skip("there is no shellcheck: apt-get install shellcheck")
    done = subprocess.run(
        ["shellcheck", *SCRIPTS], cwd=top, capture_output=True, text=True, check=False
    )
    assert done.returncode == 0, done.stdout


PACKAGE = TESTS.parent / "python/classroom"
# A package imports from those of smaller numbers, and from itself.
LAYERS = {
    "base": 0,
    "sql": 1,
    "process": 1,
    "people": 1,
    "exercise": 2,
    "verdict": 3,
    "engines": 4,
    "edits": 4,
    "grading": 5,
    "marks": 6,
    "mutants": 6,
    "hints": 6,
    "views": 7,
    "picking": 7,
    "platforms": 8,
    "web": 8,
    "commands": 9,
    "main": 10,
}


def imports(path: Path) -> Iterator[tuple[int, str]]:
    """Which packages of `classroom` a module imports, in functions and for types too, with the
    lines."""
    for node in ast.walk(ast.parse(path.read_text(encoding="utf-8"))):
        if isinstance(node, ast.ImportFrom) and (node.module or "").startswith("classroom."):
            yield node.lineno, (node.module or "").split(".")[1]
        elif isinstance(node, ast.ImportFrom) and node.module == "classroom":
            yield from ((node.lineno, name.name) for name in node.names)
        elif isinstance(node, ast.Import):
            yield from (
                (node.lineno, name.name.split(".")[1])
                for name in node.names
                if name.name.startswith("classroom.")
            )


@pytest.mark.parametrize(
    "path", sorted(PACKAGE.rglob("*.py")), ids=lambda path: str(path.relative_to(PACKAGE))
)
def test_layers(path: Path) -> None:
    own = path.relative_to(PACKAGE).parts[0].removesuffix(".py")
    for line, other in imports(path):
        assert other == own or LAYERS[other] < LAYERS.get(own, 11), f"{path}:{line} imports {other}"


def test_a_name_alone_finds_its_module() -> None:
    found: dict[str, Path] = {}
    for path in sorted(PACKAGE.rglob("*.py")):
        if path.name != "__init__.py" and path.parent.name != "commands":
            assert path.name not in found, f"{path} and {found[path.name]}"
            found[path.name] = path


@pytest.mark.parametrize(
    "path", sorted(PACKAGE.rglob("*.py")), ids=lambda path: str(path.relative_to(PACKAGE))
)
def test_modules_are_small(path: Path) -> None:
    assert len(path.read_text(encoding="utf-8").splitlines()) <= 400
