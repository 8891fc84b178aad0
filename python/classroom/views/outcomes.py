"""How the outcome of an answer is said and drawn, for whoever may read it.

`STUDENTS` and `TEACHER` say it to one of the two: what speaks of the reference is for the teacher
alone."""
from __future__ import annotations

from collections.abc import Callable, Mapping, Sequence
from typing import NamedTuple

from classroom.views import draw
from classroom.verdict import witness
from classroom.views.draw import Drawing, counted
from classroom.grading.graded import Graded
from classroom.verdict.decision import Grade, NoteKind
from classroom.hints.mistake import Mistake
from classroom.sql.schema import Table
from classroom.views import draw_tried as drawing
from classroom.verdict import sentences as trial_words
from classroom.verdict.compare import DUPLICATES
from classroom.verdict.compare import ORDER as BY_ORDER
from classroom.verdict.verdict import Differs, NoDifference, Verdict

# The order of what is shown of a task.
ORDER = (*(grade for grade in Grade if grade != Grade.AGREES), Grade.AGREES)


class Reader(NamedTuple):
    """What one who reads a page is told of an answer."""

    words: Callable[[Graded], str]  # the grade with what belongs to it
    shows_text: Callable[[Graded], bool]
    printed: Callable[[Graded], str]  # that is no answer of the program


def grouped(graded: Sequence[Graded], mistakes: Mapping[str, Mistake]) -> list[list[Graded]]:
    """The answers to one task by their mistakes, where these are known, else by their outcomes, in
    the order of what is shown, the most frequent first."""
    groups: dict[object, list[Graded]] = {}
    for of in graded:
        mistake = mistakes[of.record].name if of.record in mistakes else ""
        outcome = (
            None
            if of.grade == Grade.AGREES
            else of.trial.outcome
            if of.trial and of.is_tried
            else of.outcome
        )
        same = (of.grade, of.is_tried, mistake or outcome, of.fault)
        groups.setdefault(same, []).append(of)
    return sorted(
        groups.values(), key=lambda members: (ORDER.index(members[0].grade), -len(members))
    )


def css(of: Graded) -> str:
    """The classes of the style sheet."""
    return f"{of.grade.css} tried" if of.is_tried else of.grade.css


def drawing_of(of: Graded, tables: Sequence[Table]) -> Drawing | None:
    if of.tried_witness:
        return drawing.drawing(of.tried_witness)
    if (
        isinstance(of.outcome, witness.Witness)
        or isinstance(of.outcome, witness.Undecided)
        and of.outcome.best
    ):
        return draw.drawing(of.outcome, tables)
    return None


def is_unreadable(of: Graded) -> bool:
    """Whether its fault is what was printed, which is no answer of the program."""
    return of.decision.has_died


def printed_of(of: Graded) -> str:
    """What was printed that is no answer, or how the program ended; "" where it answered."""
    died = of.outcome.printed.strip() if isinstance(of.outcome, witness.Died) else ""
    return (died or of.fault) if is_unreadable(of) else ""


def words(of: Graded) -> str:
    """The grade with what belongs to it, and nothing that speaks of the reference: neither why that
    is refused nor what both queries cost together."""
    if of.trial and of.is_tried:
        return tried_words(of, of.grade == Grade.WRONG_SQL)
    if of.grade == Grade.DIFFERS:
        return differing_words(of)
    if not of.fault or is_unreadable(of) or of.grade in (Grade.NO_VERDICT, Grade.NOT_GRADED):
        return str(of.grade)
    return f"{of.grade}: {of.fault}"


def whole_words(of: Graded) -> str:
    """The grade with all that belongs to it."""
    if of.trial and of.is_tried:
        return tried_words(of, True)
    if of.grade == Grade.DIFFERS:
        return differing_words(of)
    fault = of.whole_fault
    return str(of.grade) if not fault or is_unreadable(of) else f"{of.grade}: {fault}"


def tried_words(of: Graded, tells_fault: bool) -> str:
    found = f"{of.grade} (tried)"
    if of.tried_witness:
        found += (
            f" on {counted(len(of.tried_witness.kept), 'row')}:"
            f" {trial_words.KINDS[of.tried_witness.how]}"
        )
    return f"{found}: {of.fault}" if of.fault and tells_fault else found


def differing_words(of: Graded) -> str:
    found = "differs" if of.rows is None else f"differs on {counted(of.rows, 'row')}"
    for note in of.decision.notes:
        if note.kind == NoteKind.OTHER_COLUMNS:
            return f"{found}: {trial_words.note(note)}"
        if note.kind == NoteKind.PERHAPS_FEWER:
            return f"{found}, {trial_words.note(note)}"
    return found


def told(of: Graded) -> str:
    if of.trial and of.is_tried:
        return told_of_trial(of.trial)
    return {
        Grade.AGREES: (
            "The reference and these answers answer alike on every part of the exercise’s rows that"
            " meets the schema."
        ),
        Grade.WRONG_SQL: "The database refuses it.",
        Grade.NOT_READ: "No verdict and no score: it is to be graded by hand.",
        Grade.NO_VERDICT: "There is no verdict and no score: it is to be graded by hand.",
        Grade.NOT_GRADED: "The reference of this task can’t be compared with.",
    }.get(of.grade, "")


def told_of_trial(found: Verdict) -> str:
    """By what it is known, and that it is tried."""
    said = trial_words.TRIED.format(engine=found.engine)
    if isinstance(found.outcome, Differs):
        return f"{trial_words.least(found.outcome)} {said}"
    if isinstance(found.outcome, NoDifference):
        return f"{trial_words.tried_on(found.outcome)} {said}"
    return said


def is_surely_wrong(of: Graded) -> bool:
    """Whether its text is known to be no solution. One that differs in duplicates or order alone is
    as good as one."""
    is_slight = of.tried_witness is not None and of.tried_witness.difference in (
        DUPLICATES,
        BY_ORDER,
    )
    return of.grade == Grade.DIFFERS and not is_slight


def remarks(members: Sequence[Graded]) -> dict[str, list[str]]:
    """What differs in duplicates or order alone, with the answers of which it is so."""
    found: dict[str, list[str]] = {}
    for of in members:
        for note in of.decision.notes:
            if note.is_slight or note.kind in (NoteKind.NOT_LOOKED, NoteKind.OTHER_REFERENCE):
                found.setdefault(trial_words.note(note), []).append(of.answer.label)
    return found


def title(labels: Sequence[str]) -> str:
    return (
        f"Answer {labels[0]}"
        if len(labels) == 1
        else f"Answer {labels[0]} and {len(labels) - 1} more"
    )


def text_of(text: bytes) -> str:
    return text.decode("utf-8", "replace").replace("\r\n", "\n").removesuffix("\n")


STUDENTS = Reader(words, is_surely_wrong, lambda of: "")
TEACHER = Reader(whole_words, lambda of: True, printed_of)
