"""One call in a child process, within limits of time and memory."""
from __future__ import annotations

import os
import subprocess
import sys
from dataclasses import dataclass
from pathlib import Path

from ratest.library import NoLibrary
from ratest.limited import MALFORMED, NO_LIBRARY
from ratest.printed import OUT_OF_MEMORY

PROGRAM = (
    "import sys; sys.path.insert(0, sys.argv[1]); from ratest.limited import main;"
    " sys.exit(main(*sys.argv[2:]))"
)


@dataclass(frozen=True)
class Limits:
    """What one call may take."""

    seconds: float = 60.0
    megabytes: int = 2000  # of address space


class Stopped(RuntimeError):
    """A call passed a limit, and was stopped."""

    def __init__(self, passed: str) -> None:
        super().__init__(f"the call passed its limit of {passed}")
        self.passed = passed  # time or memory


def answered(request: bytes, library: Path, limits: Limits) -> bytes:
    """The reply to a request, from a child process."""
    folder = Path(__file__).resolve().parents[1]
    words = [
        sys.executable,
        "-I",
        "-c",
        PROGRAM,
        os.fspath(folder),
        os.fspath(library),
        str(limits.megabytes),
    ]
    try:
        ran = subprocess.run(
            words,
            input=request,
            stdout=subprocess.PIPE,
            stderr=subprocess.DEVNULL,
            timeout=limits.seconds,
            check=False,
        )
    except subprocess.TimeoutExpired:
        raise Stopped("time") from None
    if ran.returncode == MALFORMED:
        raise ValueError("the request is malformed")
    if ran.returncode == NO_LIBRARY:
        raise NoLibrary(f"{library} can't be loaded")
    if ran.returncode != 0 or not ran.stdout or ran.stdout[0] == OUT_OF_MEMORY:
        raise Stopped("memory")
    return ran.stdout
