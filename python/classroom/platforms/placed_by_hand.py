"""What a teacher placed by hand: EXERCISE/class/placed.csv.

    file,student,task

A file is named as `collect` names it, by its path in the archive. A later `collect` keeps to the
lines; of two for one file the later counts.
"""
from __future__ import annotations

import csv
import io
import os
import unicodedata
from collections.abc import Mapping, Sequence
from pathlib import Path
from typing import NamedTuple

from classroom.base import files
from classroom.base.csvcells import restored, safe
from classroom.base.errors import Fault, shown
from classroom.people.identity import composed, fault_of_id, key
from classroom.people.roster import ClassList

FILE = Path("class/placed.csv")
COLUMNS = ("file", "student", "task")
MOST_BYTES = 4_000_000


class ByHand(NamedTuple):
    """To whom and to which task a file belongs."""

    student: str  # the id
    task: str


def label_key(label: str) -> str:
    """What of a file's path is compared: some systems write ö as o and a mark."""
    return unicodedata.normalize("NFC", label)


def read_placed(folder: Path, tasks: Sequence[str], students: ClassList) -> dict[str, ByHand]:
    """The lines of an exercise's file by the keys of the paths; none where there is no file. A Fault
    names the line that is wrong."""
    path = folder / FILE
    raw = files.bounded(path, MOST_BYTES)
    if raw is None:
        return {}
    try:
        lines = list(csv.reader(io.StringIO(raw.decode("utf-8-sig"), newline=""), strict=True))
    except (UnicodeDecodeError, csv.Error) as fault:
        raise Fault(f"{shown(os.fspath(path))}: no CSV file in UTF-8: {fault}") from None
    if not lines or tuple(cell.strip() for cell in lines[0]) != COLUMNS:
        raise Fault(f"{shown(os.fspath(path))}: the first line has to be {','.join(COLUMNS)}")
    found: dict[str, ByHand] = {}
    for number, cells in enumerate(lines[1:], 2):
        if not any(map(str.strip, cells)):
            continue
        if len(cells) != len(COLUMNS):
            raise Fault(f"{shown(os.fspath(path))}: line {number}: three cells are wanted")
        try:
            found |= checked([tuple(map(restored, cells))], tasks, students)
        except Fault as fault:
            raise Fault(f"{shown(os.fspath(path))}: line {number}: {fault}") from None
    return found


def checked(
    places: Sequence[Sequence[str]], tasks: Sequence[str], students: ClassList
) -> dict[str, ByHand]:
    """Places as they are said, by the keys of the paths; a Fault where there is no such task, or the
    class list has no such student."""
    found = {}
    for file, student, task in places:
        known = students.known("id", student)
        name = known.id if known else composed(student)
        same = [one for one in tasks if key(one) == key(task)]
        if not same:
            raise Fault(f"there is no task {shown(task)}")
        if students.students and not known:
            raise Fault(f"the class list has no student {shown(student)}")
        if why := fault_of_id(name):
            raise Fault(f"the student {shown(student)}: {why}")
        found[label_key(file)] = ByHand(name, same[0])
    return found


def write_placed(folder: Path, places: Mapping[str, ByHand]) -> None:
    text = io.StringIO(newline="")
    writer = csv.writer(text, lineterminator="\n")
    writer.writerow(COLUMNS)
    writer.writerows((safe(file), safe(to.student), safe(to.task)) for file, to in places.items())
    (folder / FILE).parent.mkdir(exist_ok=True)
    files.write(folder / FILE, text.getvalue().encode("utf-8", "replace"))
