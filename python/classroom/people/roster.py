"""The class list: who is in the class, and under which numbers the platforms know them.

A CSV file with a header: `id` and `name`, and `moodle`, `canvas`, `email`, `login` and `extra`
where they are needed, or the usual names for these (`people.headers`); other columns are passed over. Answers
of a student are the files ID.sql. """
from __future__ import annotations

import csv
import io
import os
import re
from collections.abc import Mapping, Sequence
from dataclasses import dataclass, fields
from datetime import datetime, timedelta
from functools import cached_property
from pathlib import Path

from classroom.base import files as reading
from classroom.base.errors import Fault, shown
from classroom.people.headers import columns_of, decoded, parted
from classroom.people.identity import composed, fault_of_id, key

MOST_BYTES = 4_000_000
# The columns by which a platform's archive names a student, each of whose numbers is one student's.
NUMBERS = ("moodle", "canvas")
MINUTES = re.compile("[0-9]{1,6}")


@dataclass(frozen=True)
class Student:
    """A line of the list; "" where a cell is empty or its column not there."""

    id: str
    name: str
    moodle: str = ""  # the participant's number
    canvas: str = ""  # the user's number
    email: str = ""
    login: str = ""
    extra: str = ""  # minutes after the closing time, or a moment: the student's own closing time

    def closing(self, closes: datetime | None) -> datetime | None:
        """The student's own closing time, by that of the exercise."""
        if not self.extra or closes is None:
            return closes
        if MINUTES.fullmatch(self.extra):
            return closes + timedelta(minutes=int(self.extra))
        return datetime.fromisoformat(self.extra)


@dataclass(frozen=True)
class ClassList:
    """The students in the order of the list; none where there is no list."""

    students: tuple[Student, ...] = ()
    # By what they are for, the columns that have another name: `id`, `Matrikelnummer`.
    renamed: tuple[tuple[str, str], ...] = ()

    def with_id(self, name: str) -> Student | None:
        """The student whose id this is, however it is written."""
        return self._by.get(("id", key(name)))

    def known(self, column: str, number: str) -> Student | None:
        """The student that has this number in a column, the id being one too, and the e-mail
        address and the login other names of the id."""
        columns = (column, "email", "login") if column == "id" else (column,)
        found = [self._by.get((name, key(number))) for name in columns] if key(number) else []
        return next(filter(None, found), None)

    @cached_property
    def _by(self) -> Mapping[tuple[str, str], Student]:
        return {
            (column, key(getattr(student, column))): student
            for student in self.students
            for column in ("id", "email", "login", *NUMBERS)
            if getattr(student, column)
        }


def read(path: Path) -> ClassList:
    """The class list in a file, a Fault where it is none; an empty one where there is no file."""
    raw = reading.bounded(path, MOST_BYTES)
    if raw is None:
        return ClassList()
    try:
        return list_of(decoded(raw))
    except UnicodeDecodeError:
        raise Fault(f"{shown(os.fspath(path))}: it begins as UTF-16 and is none") from None
    except csv.Error as fault:
        raise Fault(f"{shown(os.fspath(path))}: no CSV file: {fault}") from None
    except Fault as fault:
        raise Fault(f"{shown(os.fspath(path))}: {fault}") from None


def list_of(text: str) -> ClassList:
    """The class list of a text; a Fault names the line that is wrong."""
    delimiter, text = parted(text)
    lines = csv.reader(io.StringIO(text, newline=""), delimiter=delimiter, strict=True)
    header: list[str] = next(lines, [])
    columns = columns_of(header)
    students: list[Student] = []
    seen: dict[tuple[str, str], int] = {}
    for cells in lines:
        if any(cell.strip() for cell in cells):
            student = student_of(header, columns, cells, lines.line_num)
            check_new(student, seen, lines.line_num)
            students.append(student)
    renamed = [(use, composed(header[at])) for use, at in columns.items() if key(header[at]) != use]
    return ClassList(tuple(students), tuple(renamed))


def student_of(
    header: Sequence[str], columns: Mapping[str, int], cells: Sequence[str], line: int
) -> Student:
    if len(cells) > len(header):
        raise Fault(f"line {line}: more cells than columns")
    # An archive may write ö as o and a mark.
    values = {use: composed(cells[at]) for use, at in columns.items() if at < len(cells)}
    if "name" not in columns:
        values["name"] = composed(f"{values.get('first', '')} {values.get('last', '')}")
    known = {field.name: values.get(field.name, "") for field in fields(Student)}
    why = fault_of_id(known["id"])
    if why:
        raise Fault(f"line {line}: the id {shown(known['id'])}: {why}")
    if not known["name"]:
        raise Fault(f"line {line}: no name")
    if not is_extra(known["extra"]):
        raise Fault(
            f"line {line}: extra {shown(known['extra'])}: minutes are wanted, or a moment with its"
            " zone"
        )
    return Student(**known)


def is_extra(cell: str) -> bool:
    """Whether it is nothing, a number of minutes, or a moment with its zone."""
    try:
        return (
            not cell or bool(MINUTES.fullmatch(cell)) or bool(datetime.fromisoformat(cell).tzinfo)
        )
    except ValueError:
        return False


def check_new(student: Student, seen: dict[tuple[str, str], int], line: int) -> None:
    """A Fault where an earlier line has the id, or one of the numbers."""
    for column in ("id", "email", "login", *NUMBERS):
        value = key(getattr(student, column))
        if value and seen.setdefault((column, value), line) != line:
            raise Fault(
                f"line {line}: {column} {shown(value)} stands in line {seen[column, value]} too"
            )
