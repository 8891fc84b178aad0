"""Writes class/marks.csv: every line is kept that isn't changed, whoever wrote it meanwhile."""
from __future__ import annotations

import csv
import io
import os
from collections.abc import Callable, Iterable, Mapping, Sequence
from decimal import Decimal
from pathlib import Path

from classroom.base import files
from classroom.base.csvcells import safe
from classroom.base.errors import Fault, shown
from classroom.exercise.exercise import in_order
from classroom.marks import hand
from classroom.marks.hand import COLUMNS, Line

MARK = "\ufeff"  # by which a spreadsheet knows UTF-8
ATTEMPTS = 20
POINTS = COLUMNS.index("points")

Change = Callable[[Sequence[Line]], Iterable[Line]]


def line_of(values: Mapping[str, str], most: Mapping[str, Decimal]) -> Line:
    """A line of these cells, by the names of columns, others empty; a Fault names what is wrong."""
    cells = [values.get(name, "").replace("\r\n", "\n").replace("\r", "\n") for name in COLUMNS]
    for name, cell in zip(COLUMNS, cells):
        try:
            cell.encode()
        except UnicodeEncodeError:
            raise hand.wrong(0, name, f"{shown(cell)} is not UTF-8") from None
    return hand.line_of(0, [safe(cell) for cell in cells], most)


def putting(lines: Iterable[Line]) -> Change:
    """These lines in place of those about the same."""
    new = tuple(lines)
    return lambda before: [*removing(new)(before), *new]


def removing(lines: Iterable[Line]) -> Change:
    """Without the lines that are about the same."""
    old = tuple(lines)
    return lambda before: [
        line for line in before if not any(line.is_about_the_same(one) for one in old)
    ]


def change(path: Path, most: Mapping[str, Decimal], how: Change) -> bytes:
    """Changes the file, which may not be there yet; gives its new bytes, which are on the disk
    then. A Fault, with nothing written, where the file has a fault or the change makes one."""
    path = Path(os.path.realpath(path))
    path.parent.mkdir(exist_ok=True)
    with files.locked(path.parent):
        for _ in range(ATTEMPTS):
            raw = files.bounded(path, hand.MOST_BYTES)
            made = bytes_of(how(hand.lines_of_file(raw, path, most)), raw or b"")
            hand.lines_of_file(made, path, most)
            # Editors take no lock.
            if files.replace(path, raw, made):
                return made
    raise Fault(f"{shown(os.fspath(path))} changes all the time: nothing was written")


def bytes_of(lines: Iterable[Line], before: bytes) -> bytes:
    """The file of these lines in their order, which is one for all who write it; what parts the
    cells stays as before."""
    old = before.decode("utf-8-sig")
    text = io.StringIO(newline="")
    ending = "\r\n" if "\r\n" in old.partition("\n")[0] + "\n" else "\n"
    parts = hand.delimiter(old)
    writer = csv.writer(text, delimiter=parts, lineterminator=ending)
    writer.writerow(COLUMNS)
    for line in sorted(lines, key=order):
        cells = line.cells
        writer.writerow(
            cell if at == POINTS else safe(cell) for at, cell in enumerate(cells)
        )  # points are a number, and no formula
    begin = MARK if before.startswith(MARK.encode()) else ""
    return (begin + text.getvalue()).encode()


def order(line: Line) -> tuple[object, ...]:
    return (in_order(line.task), line.given.about, line.value)
