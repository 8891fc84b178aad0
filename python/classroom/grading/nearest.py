"""Against which of several right queries an answer is graded: one that it agrees with, else the
nearest."""
from __future__ import annotations

from collections.abc import Sequence
from dataclasses import replace

from classroom.exercise.exercise import REFERENCE
from classroom.grading.graded import Graded
from classroom.verdict.decision import Grade, Note, NoteKind


def nearest(found: Sequence[Graded]) -> Graded:
    """The grade of an answer against the reference that speaks most for it, with those against the
    others beside it. `found` has one grade for each reference, in their order.

    What agrees with one is right. Else what one of them leaves open is open. What differs from all
    is explained by the largest of the smallest counterexamples: there it takes the most rows to
    tell the two apart."""
    best = min(found, key=distance)
    others = tuple(of for of in found if of is not best)
    if best.task.source == REFERENCE or best.grade not in COMPARED:
        return replace(best, others=others)
    note = Note(NoteKind.OTHER_REFERENCE, best.task.source)
    decision = replace(best.decision, notes=(note, *best.decision.notes))
    return replace(best, decision=decision, others=others)


COMPARED = (Grade.AGREES, Grade.NO_DIFFERENCE, Grade.DIFFERS)
RANKS = list(Grade)


def distance(of: Graded) -> tuple[int, int]:
    """How far an answer is from a reference, to be compared alone."""
    if of.share:
        return 0, RANKS.index(of.grade)
    if of.share is None:
        return 1, RANKS.index(of.grade)
    return 2, -(of.rows or 0)
