"""Answers as a verdict shows them."""
from __future__ import annotations

from collections import Counter
from collections.abc import Collection, Sequence

from classroom.exercise.cells import Cell, Cells
from classroom.verdict import verdict
from classroom.verdict.compare import Answer, plain, rounded, with_floats
from classroom.exercise.rows import picked
from classroom.exercise.part_masks import Mask, Parts, bits
from classroom.verdict.verdict import Side, WitnessRow


def lines(reference: Answer, answer: Answer) -> tuple[verdict.Line, ...]:
    """The rows of both answers, each once, in the order in which they came, with how often each has
    it."""
    floats = with_floats(reference.lines, answer.lines)
    keys = [rounded(of.lines, floats) for of in (reference, answer)]
    bags = [Counter(of) for of in keys]
    shown: dict[tuple[object, ...], Cells] = {}
    for of, known in zip((reference, answer), keys):
        for key, line in zip(known, of.lines):
            shown.setdefault(key, cells(line))
    return tuple(verdict.Line(line, bags[0][key], bags[1][key]) for key, line in shown.items())


def kept_rows(
    part: Mask, parts: Parts, columns: Sequence[Sequence[int]] | None = None
) -> tuple[WitnessRow, ...]:
    """The rows of a part with their numbers in the files; of each table the columns with these
    places, else all."""
    made = []
    for at in bits(part):
        row = parts.rows[at]
        held = parts.pool.held[row.table]
        cells = held.rows[row.number]
        if columns is not None:
            cells = picked(cells, tuple(columns[row.table]))
        made.append(WitnessRow(held.table.name, row.number + 1, cells))
    return tuple(made)


def side(answer: Answer) -> Side:
    return Side(answer.columns, tuple(map(cells, answer.lines)), answer.failure)


def cells(line: Collection[object]) -> Cells:
    """The values as they are shown: what is no number and no text by its text."""
    return tuple(value if value is None or type(value) in (int, float, str, bytes) else shown(value) for value in line)  # type: ignore[misc]


def shown(value: object) -> Cell:
    if isinstance(value, bool):
        return "true" if value else "false"
    if isinstance(value, (bytearray, memoryview)):
        return bytes(value)
    text = plain(value)
    return text if isinstance(text, str) else str(value)
