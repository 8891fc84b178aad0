"""What one student is told: for each task the own text, its verdict, and the rows on which it goes
wrong.

No other student's name or text is in it, and nothing of the reference but what it answers on the
rows that are shown; its text only where that is asked for. """
from __future__ import annotations

from collections.abc import Mapping, Sequence
from dataclasses import dataclass
from decimal import Decimal

from classroom.views import outcomes
from classroom.marks import gradebook as standing
from classroom.views.draw import Drawing, counted
from classroom.base.errors import shown
from classroom.exercise.exercise import Exercise, Task
from classroom.grading.graded import Graded
from classroom.marks.mark import Mark
from classroom.marks.mark import shown as shown_points
from classroom.verdict.decision import Grade, NoteKind
from classroom.hints import steps_shown as steps
from classroom.hints.mistake import Mistake
from classroom.verdict import sentences as trial_words
from classroom.verdict.verdict import Remark
from classroom.sql.clean import CleanText
from classroom.marks.gradebook import Standing
from classroom.views.task_question import question
from ratest.places import Place

NOTHING = "nothing was handed in"
UNPLACED = "a file of yours could not be put to a task: {}"
TOLD = {
    Grade.AGREES: (
        "Your query and the reference answer alike on every part of the exercise’s rows that meets"
        " the schema."
    ),
    Grade.NO_DIFFERENCE: (
        "No rows were found on which your query and the reference answer differently."
    ),
    Grade.NOT_DETERMINED: (
        "What a query returns depends on the order in which the rows are stored, so it is graded by"
        " hand."
    ),
    Grade.DIFFERS: (
        "On these of the exercise’s rows your query and the reference answer differently. On fewer"
        " of them they don’t."
    ),
    Grade.WRONG_SQL: "The database refuses it.",
    Grade.NOT_READ: "It is graded by hand.",
    Grade.NO_VERDICT: "No verdict was found within the limits, so it is graded by hand.",
    Grade.NOT_GRADED: "The answers to this task are graded by hand.",
}
FEWER = (
    "On these of the exercise’s rows your query and the reference answer differently. Fewer may do."
)
NOT_LOOKED = (
    "Your query and the reference return the same rows. How often each comes, or in which order,"
    " counts too, and is looked at by hand."
)
COLUMNS = "The two queries have other numbers of columns."


@dataclass(frozen=True)
class Part:
    """An answer to a task; without a text where none was handed in."""

    title: str
    question: str  # as HTML; empty where there is none
    kind: str  # of the style sheet
    words: str  # the verdict
    told: str  # what it means
    points: str  # as `1 of 2`, or that it is graded by hand
    most: Decimal  # the points that it may have
    text: str | None
    drawing: Drawing | None
    reference: str | None  # None where it is not shown
    hints: tuple[Hint, ...] = ()
    late: str = ""  # how late it was, with the deduction
    comment: tuple[str, ...] = ()  # the lines of what the teacher wrote


@dataclass(frozen=True)
class Hint:
    """One step of where the mistake is, which a page shows when it is opened."""

    text: str
    place: Place | None


@dataclass(frozen=True)
class Sheet:
    """All that one student gets."""

    id: str
    title: str  # of the exercise
    name: str
    points: str
    parts: tuple[Part, ...]

    @property
    def summary(self) -> str:
        return self.points


def sheet(
    given: Exercise, of: Standing, shows_references: bool, mistakes: Mapping[str, Mistake] = {}
) -> Sheet:
    """`mistakes` are those of answers, by the keys of their records."""
    parts = tuple(
        part(given, task, answer, mark, shows_references, mistakes, of.unplaced)
        for task, answer, mark in zip(given.tasks, of.answers, of.marks)
    )
    return Sheet(of.student.id, given.title, of.student.name, points_of(given, of), parts)


def points_of(given: Exercise, of: Standing) -> str:
    """As `3 of 5 points, 1 answer still to be graded by hand`."""
    most = sum(map(standing.most_points, given.tasks))
    said = f"{shown_points(of.points)} of {shown_points(Decimal(most))} points"
    return f"{said}, {counted(of.open, 'answer')} still to be graded by hand" if of.open else said


def part(
    given: Exercise,
    task: Task,
    of: Graded | None,
    mark: Mark | None,
    shows_references: bool,
    mistakes: Mapping[str, Mistake] = {},
    unplaced: Sequence[str] = (),
) -> Part:
    # Of several the one that the answer was compared with.
    by = of.task if of else task
    reference = outcomes.text_of(by.reference) if shows_references else None
    points = points_of_part(task, mark)
    late = mark.late if mark else ""
    comment = tuple(mark.comment.splitlines()) if mark else ()
    if of is None:
        return Part(
            task.title,
            question(task),
            "none",
            UNPLACED.format(shown(*unplaced)) if unplaced else NOTHING,
            "",
            points,
            standing.most_points(task),
            None,
            None,
            reference,
            comment=comment,
        )
    return Part(
        task.title,
        question(task),
        outcomes.css(of),
        outcomes.words(of),
        told(of),
        points,
        standing.most_points(task),
        outcomes.text_of(of.answer.text.whole),
        outcomes.drawing_of(of, given.tables),
        reference,
        hints(given, of, mistakes),
        late,
        comment,
    )


def points_of_part(task: Task, mark: Mark | None) -> str:
    """As `1.5 of 2`; of what was not handed in `0 of 2`."""
    if mark and mark.is_open:
        return standing.BY_HAND
    most = shown_points(standing.most_points(task))
    return f"{standing.cell(mark) or '0'} of {most}"


def hints(given: Exercise, of: Graded, mistakes: Mapping[str, Mistake]) -> tuple[Hint, ...]:
    text = of.answer.text.query.decode("utf-8", "replace")
    return tuple(
        Hint(step.text, steps.place_of(step, text))
        for step in steps.told(mistakes.get(of.record), given.settings)
    )


def told(of: Graded) -> str:
    """What the verdict means, in words to the student, and what was seen in the text itself."""
    return told_of_verdict(of) + told_of_text(of.answer.text)


def told_of_text(text: CleanText) -> str:
    """What was left out of it, and signs of a word processor in it, each in a sentence behind a
    blank."""
    return "".join(
        f" It was read {remark}." if remark.startswith("without ") else f" It has {remark}."
        for remark in text.remarks
        if " line " in remark
    )


def told_of_verdict(of: Graded) -> str:
    slight = "".join(
        f" It {trial_words.remark(note.value)}."
        for note in of.decision.notes
        if note.is_slight and isinstance(note.value, Remark)
    )
    if of.trial and of.is_tried:
        return f"{outcomes.told_of_trial(of.trial)}{slight}"
    if of.grade == Grade.AGREES and slight:
        return f"{TOLD[Grade.AGREES]}{slight}"
    kinds = {note.kind for note in of.decision.notes}
    if NoteKind.OTHER_COLUMNS in kinds:
        return COLUMNS
    if NoteKind.NOT_LOOKED in kinds:
        return NOT_LOOKED
    return FEWER if NoteKind.PERHAPS_FEWER in kinds else TOLD[of.grade]
