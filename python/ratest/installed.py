"""Where the programs `ratest` and `ratest_plus` and the shared object are, and which version this
is.

    a wheel         ratest/programs/NAME, in this package
    a repository    TOP/python/ratest is this package; what is built stands where its tools leave it
    a prefix        PREFIX/lib/python3*/dist-packages/ratest is this package, and PREFIX/lib/ratest/NAME the program
"""
from __future__ import annotations

from pathlib import Path

# The same as in the file VERSION of the repository.
VERSION = "1.0.0"
HERE = Path(__file__).resolve().parent
PACKED = HERE / "programs"
REPOSITORY = HERE.parents[1]


def packed(name: str) -> Path | None:
    """The file of this name that came in a wheel with this package."""
    return _file(PACKED / name)


def below_prefix(name: str) -> Path | None:
    """The file of this name that was installed with this package below a prefix."""
    return _file(HERE.parents[2] / "ratest" / name) if len(HERE.parents) > 2 else None


def _file(path: Path) -> Path | None:
    return path if path.is_file() else None
