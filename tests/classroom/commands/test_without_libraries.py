"""What a wheel without extras has: no command needs a library to be known, or to say what it
does."""
from __future__ import annotations

import subprocess
import sys
from pathlib import Path

import pytest

PYTHON = Path(__file__).resolve().parents[3] / "python"
LIBRARIES = (
    "flask",
    "itsdangerous",
    "jinja2",
    "limits",
    "markdown_it",
    "psycopg",
    "sqlglot",
    "tomlkit",
    "waitress",
)
CODE = """
import sys
for name in {libraries}:
    sys.modules[name] = None
sys.path.insert(0, {folder!r})
from classroom.main import main
sys.exit(main({words}))
"""


@pytest.mark.parametrize(
    "words",
    [
        ["--version"],
        ["grade", "--help"],
        ["collect", "--help"],
        ["serve", "--help"],
        ["pick", "--help"],
    ],
    ids=" ".join,
)
def test_known_without_libraries(words: list[str]) -> None:
    ran = subprocess.run(
        [sys.executable, "-c", CODE.format(libraries=LIBRARIES, folder=str(PYTHON), words=words)],
        capture_output=True,
        text=True,
        timeout=60,
        check=False,
    )
    assert (ran.returncode, ran.stderr) == (0, "") and ran.stdout
