"""A program of the repository, its two builds, and whether one of them is newer than its sources.

Imports little, since each run of a proved program passes here.
"""
from __future__ import annotations

import os
import signal
import sys
from collections.abc import Iterator


def crate_of(line: str) -> str:
    """The crate of a line of crates.txt, `NAME: ..` or `NAME staticlib: ..`."""
    return line.split(":")[0].split()[0]


class Program:
    """The program `name` of the repository at `top`, which the caller named `called`."""

    def __init__(self, top: str, name: str, called: str) -> None:
        self.top = top
        self.name = name
        self.called = called
        # Where `rt ci` leaves it.
        self.proved = os.path.join(top, "crates", name, "out", name)
        # `rt ci` sets aside each crate's out/.
        self.unproved = os.path.join(top, "out", f"{name}.unproved")
        self.crates_file = os.path.join(top, "crates.txt")

    def say(self, text: str) -> None:
        print(f"{self.name}: {text}", file=sys.stderr, flush=True)

    def crate_lines(self) -> list[str]:
        """The lines of crates.txt for the program's crate and all that it stands on, in their
        order."""
        with open(self.crates_file, encoding="utf-8") as file:
            lines = {
                crate_of(line): line for line in file if ":" in line and not line.startswith("#")
            }
        taken, left = set(), [self.name]
        while left:
            crate = left.pop()
            if crate in lines and crate not in taken:
                taken.add(crate)
                left += lines[crate].split(":")[1].split()
        return [line for crate, line in lines.items() if crate in taken]

    def sources(self) -> Iterator[str]:
        """The files that a build of the program reads."""
        yield self.crates_file
        for line in self.crate_lines():
            folder = os.path.join(self.top, "crates", crate_of(line))
            for part in ("src", "specs", "proofs"):
                for at, _, names in os.walk(os.path.join(folder, part)):
                    yield from (
                        os.path.join(at, name) for name in names if name.endswith((".rt", ".antt"))
                    )

    def is_built(self, path: str) -> bool:
        """Whether this build of the program is there and no source is newer."""
        try:
            made = os.stat(path).st_mtime_ns
            return os.access(path, os.X_OK) and all(
                os.stat(it).st_mtime_ns <= made for it in self.sources()
            )
        except OSError:
            return False

    def take_over(self, words: list[str]) -> None:
        """Runs the proved program in the place of this process."""
        # Python ignores these two, and a program would inherit that.
        for number in (signal.SIGPIPE, signal.SIGXFSZ):
            signal.signal(number, signal.SIG_DFL)
        sys.stdout.flush()
        os.execv(self.proved, [self.called, *words])
