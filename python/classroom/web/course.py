"""A course: an exercise, or a folder with some, each with its own file of what was asked."""
from __future__ import annotations

import fcntl
import os
from collections.abc import Iterator, Sequence
from contextlib import contextmanager
from dataclasses import dataclass
from pathlib import Path
from typing import TYPE_CHECKING
from urllib.parse import quote

from classroom.exercise.exercise import in_order
from classroom.base.errors import Fault, shown, visible
from classroom.web.questions import LOG, Log
from classroom.web.ask import Asker
from classroom.web.hand_ins import FILE, HandIns
from classroom.web.served_exercise import Material

if TYPE_CHECKING:  # it needs libraries that other commands do without
    from classroom.web.hint_buttons import Hinter

MOST_EXERCISES = 100


@dataclass(frozen=True)
class Served:
    """An exercise at which one may ask."""

    name: str  # in its address; empty where it is the whole course
    asker: Asker
    log: Log
    hand_ins: HandIns | None  # None where nobody can hand in, since there is no login
    hinter: Hinter | None = None  # None where no hints are told

    @property
    def material(self) -> Material:
        return self.asker.material

    @property
    def base(self) -> str:
        """Its address below the top."""
        return f"e/{quote(self.name, safe='')}/" if self.name else ""


@dataclass(frozen=True)
class Course:
    """What one server serves."""

    title: str
    served: tuple[Served, ...]

    def named(self, name: str) -> Served | None:
        return next((one for one in self.served if one.name == name), None)


def folders(course: Path) -> list[tuple[str, Path]]:
    """The exercises of a course with their names in addresses; one without a name where the folder
    is one."""
    if (course / "schema.sql").is_file():
        return [("", course)]
    if not course.is_dir():
        raise Fault(f"there is no folder {shown(os.fspath(course))}")
    found = [
        path
        for path in sorted(course.iterdir(), key=lambda path: in_order(path.name))
        if not path.name.startswith(".") and path.is_dir() and (path / "schema.sql").is_file()
    ]
    if not found:
        raise Fault(
            f"{shown(os.fspath(course))}: no exercise: neither schema.sql nor a folder with one"
        )
    if len(found) > MOST_EXERCISES:
        raise Fault(f"{shown(os.fspath(course))}: more than {MOST_EXERCISES} exercises")
    return [(visible(path.name), path) for path in found]


def place_of_log(name: str, exercise: Path, asked: Path | None) -> Path:
    """Where it is kept what was asked of an exercise: in its results, or where `--asked-file`
    says."""
    if asked is None:
        place = exercise / "results"
        place.mkdir(exist_ok=True)
        return place / LOG
    if name or asked.is_dir():
        asked.mkdir(parents=True, exist_ok=True)
        return asked / f"{name or 'asked'}.db"
    return asked


def check_apart(names: Sequence[str], asked: Path) -> None:
    """A Fault where two exercises would have one file in the folder `asked`."""
    owners: dict[Path, str] = {}
    for name in names:
        of = place_of_log(name, Path(), asked)
        for path in (of, place_of_hand_ins(of)):
            other = owners.setdefault(path, name)
            if other != name:
                raise Fault(
                    f"--asked-file: the exercises {shown(other)} and {shown(name)} would share"
                    f" {shown(path.name)}: rename one of them"
                )


@contextmanager
def held(log: Path) -> Iterator[None]:
    """Holds what is kept of an exercise against a second server; a Fault where there is one."""
    place = log.with_name(f"{log.name}.lock")
    try:
        lock = os.open(place, os.O_CREAT | os.O_RDWR | os.O_CLOEXEC, 0o600)
    except OSError as fault:
        raise Fault(f"{shown(str(log))}: {fault.strerror}") from None
    try:
        try:
            fcntl.flock(lock, fcntl.LOCK_EX | fcntl.LOCK_NB)
        except BlockingIOError:
            raise Fault(f"{shown(str(log))}: another server is at work here") from None
        yield
    finally:
        os.close(lock)


def place_of_hand_ins(log: Path) -> Path:
    """Beside what was asked, which is no hand-in."""
    return log.with_name(FILE if log.name == LOG else f"{log.stem}-{FILE}")
