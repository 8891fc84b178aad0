"""What one query answers over all rows as they are, compared with nothing."""
from __future__ import annotations

from dataclasses import dataclass
from typing import Any, Union

from classroom.engines.answer_lines import cells
from classroom.engines.engine import ANSWER, Engine
from classroom.exercise.cells import Cell, Cells
from classroom.exercise.cells import cells as read_cells
from classroom.exercise.cells import encoded
from classroom.exercise.part_masks import Parts
from classroom.verdict.verdict import Refusal, Verdict, from_json, to_json

MOST_ROWS = 200  # that are shown
MOST_CHARACTERS = 500  # of a value


@dataclass(frozen=True)
class OwnAnswer:
    """The rows that a query returns, in the order in which they came."""

    engine: str  # as `sqlite 3.40.1`
    columns: tuple[str, ...]
    rows: tuple[Cells, ...]  # the first MOST_ROWS
    count: int  # of all
    failure: str = ""  # as a division by zero; then there are no rows


Run = Union[OwnAnswer, Verdict]  # a verdict where the engine refuses the query


def own_answer(engine: Engine, parts: Parts) -> OwnAnswer:
    """The answer of the second of the engine's queries."""
    _, found = engine.answers((1 << len(parts.rows)) - 1)
    names = tuple(str(short(name)) for name in engine.columns(ANSWER))
    rows = tuple(tuple(map(short, cells(line))) for line in found.lines[:MOST_ROWS])
    return OwnAnswer(engine.label, names, rows, len(found.lines), found.failure)


def short(value: Cell) -> Cell:
    """A value that a page can show."""
    if isinstance(value, (str, bytes)) and len(value) > MOST_CHARACTERS:
        cut = value[:MOST_CHARACTERS]
        return f"{cut}…" if isinstance(cut, str) else cut
    return value


def as_json(of: Run) -> dict[str, Any]:
    if isinstance(of, Verdict):
        return {"verdict": to_json(of)}
    found: dict[str, Any] = encoded(of)
    return found


def read(of: dict[str, Any]) -> Run:
    """ValueError, KeyError or TypeError where it is none."""
    if "verdict" in of:
        found = from_json(of["verdict"])
        if not isinstance(found.outcome, Refusal):
            raise ValueError("no refusal")
        return found
    return OwnAnswer(
        str(of["engine"]),
        tuple(map(str, of["columns"])),
        tuple(map(read_cells, of["rows"])),
        int(of["count"]),
        str(of["failure"]),
    )
