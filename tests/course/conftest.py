"""The databases of the course."""
from __future__ import annotations

import sys
from pathlib import Path

TOP = Path(__file__).resolve().parents[2]
sys.path[:0] = [str(TOP / "python"), str(TOP / "tests/classroom"), str(TOP / "tests/course")]

from roles import roles  # noqa: E402, F401
