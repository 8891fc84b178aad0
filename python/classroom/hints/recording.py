"""What was found for one answer, as its record."""
from __future__ import annotations

from classroom.edits.clauses import Clauses
from classroom.edits.edits import Edit
from classroom.hints import steps as hints
from classroom.hints.mistake import PROVED, Mistake, Step, Told
from classroom.hints.repairs import Found

MOST_TOLD = 20  # changes that are kept of one answer


def told(found: Found) -> tuple[Told, ...]:
    clauses = Clauses(found.query)
    return tuple(one(edit, found.query.text, clauses) for edit in found.edits[:MOST_TOLD])


def one(edit: Edit, text: str, clauses: Clauses) -> Told:
    begin, end = edit.place
    return Told(
        edit.mistake,
        edit.kind.value,
        hints.where(edit, clauses),
        edit.text,
        text[begin:end],
        begin,
        end,
    )


def of_found(repairs: Found, classes: Found | None, pair: tuple[Edit, ...] = ()) -> Mistake:
    steps = tuple(
        Step(hint.step, hint.text, *(hint.place or (None, None)))
        for hint in hints.hints(repairs, hints.KIND)
    )
    return Mistake(
        told(repairs),
        told(classes) if classes else (),
        steps,
        tuple(edit.mistake for edit in pair) + ((pair[-1].text,) if pair else ()),
        repairs.engine if repairs.tried else PROVED,
    )
