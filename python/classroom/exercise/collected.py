"""What was handed in, file by file, and what became of it: EXERCISE/class/collected.csv.

    task,answer,source,member,late,sha256,state,why

`late` has the moment of the hand-in where it is known, and `late` where a platform tells no more.

A line has the state `placed`, with the task and the answer that the file became, or `unplaced`, with
the student's id in the column `answer` where it is known, and why; one that is not read (a link, its
size, its kind) is `refused`, one without a query `empty`, one in whose place a later one of the student counts `older`, and one with the bytes of that `same`. A list of an earlier version has
the first six columns, and only files that were placed. A name that a spreadsheet would take for a
formula has a quote in front, which is not read back.
"""
from __future__ import annotations

import csv
import io
import os
from collections.abc import Iterable, Mapping
from dataclasses import astuple, dataclass
from datetime import datetime
from pathlib import Path
from typing import NamedTuple

from classroom.base.csvcells import restored, safe
from classroom.base.errors import Fault, shown
from classroom.base.files import write
from classroom.people.identity import key

LIST = Path("class/collected.csv")
COLUMNS = ("task", "answer", "source", "member", "late", "sha256", "state", "why")
OLD = COLUMNS[:6]
LATE = "late"  # not known by how much
PLACED, UNPLACED, REFUSED = "placed", "unplaced", "refused"
EMPTY, OLDER, SAME = "empty", "older", "same"
# Of files that are no task's answer, and may hold one.
IN_DOUBT = (UNPLACED, REFUSED)
# More than any list has.
MOST_BYTES = 100_000_000


@dataclass(frozen=True)
class Collected:
    """A file that was handed in, as the columns have it."""

    task: str
    answer: str
    source: str
    member: str
    late: str = ""  # a moment with its zone, or LATE
    sha256: str = ""
    state: str = PLACED
    why: str = ""

    @property
    def of(self) -> tuple[str, str]:
        """What there is one line of: an answer, or a file of somebody that is none."""
        own = key(self.answer)
        return (self.task, own) if self.state == PLACED else ("", f"{self.member}\0{own}")


def read_collected(folder: Path) -> dict[tuple[str, str], Collected]:
    """The lines of an exercise's list; none where there is no list, a Fault where it is none."""
    path = folder / LIST
    try:
        with open(path, encoding="utf-8", newline="") as file:
            lines = list(csv.reader(io.StringIO(file.read(MOST_BYTES), newline=""), strict=True))
    except FileNotFoundError:
        return {}
    except (OSError, UnicodeDecodeError, csv.Error) as fault:
        raise Fault(f"{shown(os.fspath(path))} can't be read: {fault}") from None
    head = tuple(lines[0]) if lines else ()
    if head not in (COLUMNS, OLD) or any(len(line) != len(head) for line in lines):
        raise Fault(f"{shown(os.fspath(path))} is no list of what was collected")
    read = [Collected(*map(restored, line)) for line in lines[1:]]
    for number, one in enumerate(read, 2):
        if not is_time(one.late):
            raise Fault(
                f"{shown(os.fspath(path))}: entry {number}: {shown(one.late)} in the column late is"
                " no moment with its zone"
            )
    return {one.of: one for one in read}


def is_time(cell: str) -> bool:
    """Whether it is nothing, LATE, or a moment with its zone."""
    try:
        return cell in ("", LATE) or datetime.fromisoformat(cell).tzinfo is not None
    except ValueError:
        return False


def write_collected(folder: Path, lines: Iterable[Collected]) -> None:
    text = io.StringIO(newline="")
    writer = csv.writer(text, lineterminator="\n")
    writer.writerow(COLUMNS)
    writer.writerows(sorted(tuple(map(safe, astuple(line))) for line in lines))
    (folder / LIST).parent.mkdir(exist_ok=True)
    write(folder / LIST, text.getvalue().encode("utf-8", "replace"))


class Unplaced(NamedTuple):
    """The files of one student that are no task's answer."""

    student: str  # the id
    files: tuple[str, ...]


def unplaced_files(folder: Path) -> Mapping[str, Unplaced]:
    """The files that are nobody's answer to anything, by the keys of those who handed them in."""
    found: dict[str, Unplaced] = {}
    for line in read_collected(folder).values():
        if line.state in IN_DOUBT and line.answer:
            before = found.get(key(line.answer), Unplaced(line.answer, ()))
            name = line.member.rpartition("/")[2]
            found[key(line.answer)] = Unplaced(before.student, (*before.files, name))
    return found
