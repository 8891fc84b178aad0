"""The marks that people gave: class/marks.csv, a line a mark.

    task,student,text,mistake,outcome,points,comment,rule,by,time

A line is about the answer of a student, with the beginning of the text's SHA-256 where it is for
that text alone; or about a text, a mistake or an outcome. Commas or semicolons part the cells. """
from __future__ import annotations

import csv
import io
import os
import re
from collections.abc import Mapping, Sequence
from dataclasses import dataclass, field
from decimal import Decimal
from pathlib import Path

from classroom.base import files as reading
from classroom.base.csvcells import restored
from classroom.base.errors import Fault, shown
from classroom.marks.mark import ZERO, About, Given, Rule
from classroom.marks.mark import shown as shown_points
from classroom.people.identity import key

FILE = Path("class/marks.csv")
COLUMNS = (
    "task",
    "student",
    "text",
    "mistake",
    "outcome",
    "points",
    "comment",
    "rule",
    "by",
    "time",
)
MOST_BYTES = 20_000_000
MOST_COMMENT = 10_000
POINTS = re.compile(r"[+-]?[0-9]{1,9}(?:[.,][0-9]{1,9})?")
# So many digits that texts of a class don't meet by chance.
TEXT = re.compile(r"[0-9a-f]{8,64}")
RULES = tuple(map(str, Rule))


@dataclass(frozen=True)
class Line:
    """A line of the file."""

    number: int  # of it, where it begins
    task: str
    value: str  # the student's key, the beginning of the digest, the mistake or the outcome
    given: Given
    student: str = ""  # as it is written
    text: str = ""  # the beginning of the digest that the mark is for; empty for any text
    cells: tuple[str, ...] = field(default=(), compare=False)  # by COLUMNS

    def is_about_the_same(self, other: Line) -> bool:
        """Whether not both may stand in one file; a longer beginning of one text is the same."""
        if (self.task, self.given.about) != (other.task, other.given.about):
            return False
        if self.given.about != About.TEXT:
            return self.value == other.value
        return self.value.startswith(other.value) or other.value.startswith(self.value)

    @property
    def by(self) -> str:
        return self.cells[COLUMNS.index("by")] if self.cells else ""

    @property
    def time(self) -> str:
        return self.cells[COLUMNS.index("time")] if self.cells else ""


def read(path: Path, most: Mapping[str, Decimal]) -> tuple[Line, ...]:
    """The lines of a file, none where there is no file; `most` are the points of the tasks. A Fault
    names the line and the column that is wrong."""
    return lines_of_file(reading.bounded(path, MOST_BYTES), path, most)


def lines_of_file(raw: bytes | None, path: Path, most: Mapping[str, Decimal]) -> tuple[Line, ...]:
    """The lines of a file of these bytes, which stands at the path."""
    if raw is None:
        return ()
    try:
        return lines_of(raw.decode("utf-8-sig"), most)
    except UnicodeDecodeError as fault:
        before = raw[: fault.start]
        place = f"line {before.count(10) + 1}, byte {len(before.rpartition(bytes([10]))[2]) + 1}"
        raise Fault(f"{shown(os.fspath(path))}: {place}: not UTF-8") from None
    except Fault as fault:
        raise Fault(f"{shown(os.fspath(path))}: {fault}") from None


def lines_of(text: str, most: Mapping[str, Decimal]) -> tuple[Line, ...]:
    rows = csv.reader(io.StringIO(text, newline=""), delimiter=delimiter(text), strict=True)
    begin, found = 1, []
    try:
        check_header(next(rows, []))
        begin = rows.line_num + 1
        for cells in rows:
            if any(cell.strip() for cell in cells):
                found.append(line_of(begin, cells, most))
            begin = rows.line_num + 1
    except csv.Error as fault:
        raise wrong(begin, COLUMNS[0], f"no line of CSV: {fault}") from None
    check_each_once(found)
    return tuple(found)


def delimiter(text: str) -> str:
    """What parts the cells, by the first line."""
    head = text.partition("\n")[0]
    return ";" if ";" in head and "," not in head else ","


def wrong(line: int, column: str, why: str) -> Fault:
    """`line` is 0 for one that stands in no file yet."""
    return Fault(f"line {line}, column {column}: {why}" if line else f"{column}: {why}")


def check_header(cells: Sequence[str]) -> None:
    for at, name in enumerate(COLUMNS):
        if at >= len(cells) or cells[at].strip().casefold() != name:
            raise wrong(1, str(at + 1), f"{name} is wanted: {','.join(COLUMNS)}")
    if len(cells) > len(COLUMNS):
        raise wrong(1, str(len(COLUMNS) + 1), "there is no such column")


def line_of(number: int, cells: Sequence[str], most: Mapping[str, Decimal]) -> Line:
    if len(cells) > len(COLUMNS):
        raise wrong(number, str(len(COLUMNS) + 1), "more cells than columns")
    if len(cells) < len(COLUMNS):
        raise wrong(number, COLUMNS[len(cells)], "the line has no such cell")
    values = {name: restored(cell).strip() for name, cell in zip(COLUMNS, cells)}
    values["text"] = values["text"].casefold()
    if values["task"] not in most:
        raise wrong(number, "task", f"there is no task {shown(values['task'])}")
    if values["text"] and not TEXT.fullmatch(values["text"]):
        raise wrong(number, "text", "the first 8 to 64 digits of a SHA-256 are wanted")
    about = about_of(number, values)
    given = given_of(number, about, values, most[values["task"]])
    value = values[about.name.lower()]
    return Line(
        number,
        values["task"],
        key(value) if about == About.STUDENT else value,
        given,
        values["student"],
        values["text"],
        tuple(values[name] for name in COLUMNS),
    )


def about_of(line: int, values: Mapping[str, str]) -> About:
    """What a line is about: one thing; beside a student the text may stand."""
    said = [one for one in About if values[one.name.lower()]]
    if said[:2] == [About.STUDENT, About.TEXT]:
        said.pop(1)
    if not said:
        raise wrong(line, "student", "a student, a text, a mistake or an outcome is wanted")
    if len(said) > 1:
        already = said[0].name.lower()
        raise wrong(line, said[1].name.lower(), f"the line is about a {already} already")
    return said[0]


def given_of(line: int, about: About, values: Mapping[str, str], most: Decimal) -> Given:
    said = values["points"]
    if values["rule"] not in RULES:
        raise wrong(line, "rule", f"{shown(values['rule'])}: nothing, late or bonus is wanted")
    rule = Rule(values["rule"])
    if not POINTS.fullmatch(said):
        raise wrong(line, "points", f"{shown(said)} is no number")
    points = Decimal(said.replace(",", "."))
    if rule != Rule.BONUS and not ZERO <= points <= most:
        bounds = f"from 0 to {shown_points(most)}, unless the rule is bonus"
        raise wrong(line, "points", f"{shown(said)}: {bounds}")
    if len(values["comment"]) > MOST_COMMENT:
        raise wrong(line, "comment", f"more than {MOST_COMMENT} signs")
    return Given(about, points, values["comment"], rule)


def check_each_once(lines: Sequence[Line]) -> None:
    """A Fault where two lines are about one thing; a longer beginning of one text is the same."""
    ordered = sorted(lines, key=lambda line: (line.task, line.given.about, line.value, line.number))
    for one, other in zip(ordered, ordered[1:]):
        if one.is_about_the_same(other):
            first, second = sorted((one.number, other.number))
            raise wrong(second, one.given.about.name.lower(), f"line {first} is about the same")
