"""CodeMirror, as Debian has it."""
from __future__ import annotations

from pathlib import Path

FOLDER = Path("/usr/share/javascript/codemirror")
SCRIPTS = (
    "lib/codemirror.js",
    "mode/sql/sql.js",
    "addon/hint/show-hint.js",
    "addon/hint/sql-hint.js",
    "addon/edit/matchbrackets.js",
)
STYLES = ("lib/codemirror.css", "addon/hint/show-hint.css")


def is_there() -> bool:
    return all((FOLDER / name).is_file() for name in (*SCRIPTS, *STYLES))


def script() -> str:
    """All of its scripts in one; empty where it is not there."""
    return _joined(SCRIPTS, ";\n")


def style() -> str:
    return _joined(STYLES, "\n")


def _joined(names: tuple[str, ...], between: str) -> str:
    texts = [(FOLDER / name).read_text(encoding="utf-8") for name in names] if is_there() else []
    return "".join(f"{text}{between}" for text in texts)
