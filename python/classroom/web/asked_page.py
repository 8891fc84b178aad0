"""The page of what was asked: the mistakes in each task, the most frequent first, and the texts
that make them."""
from __future__ import annotations

from collections.abc import Sequence
from dataclasses import dataclass
from pathlib import Path

from classroom.views import draw
from classroom.views.draw import Drawing, counted
from classroom.views.for_teacher import references_of
from classroom.views.outcomes import STUDENTS, TEACHER, Reader, css, drawing_of, text_of
from classroom.exercise.exercise import Answer, Exercise, Task, digest
from classroom.grading.graded import Graded, grade
from classroom.verdict import sentences
from classroom.verdict.decision import Grade
from classroom.sql.schema import Table
from classroom.web import questions as asked
from classroom.web.questions import Text
from classroom.sql.clean import CleanText as Submitted
from ratest import printed

# Of the texts of one mistake.
MOST_TEXTS = 20


@dataclass(frozen=True)
class Shown:
    """A text, and how often it was asked."""

    title: str
    text: str


@dataclass(frozen=True)
class Mistake:
    """What was asked with one outcome."""

    kind: str
    words: str
    told: str
    count: int  # of questions
    size: int  # of texts
    texts: tuple[Shown, ...]  # the most frequent ones
    drawing: Drawing | None


@dataclass(frozen=True)
class TaskPart:
    """As students may see it."""

    name: str
    count: int  # of questions
    mistakes: tuple[Mistake, ...]


@dataclass(frozen=True)
class TeacherTask(TaskPart):
    reference: str
    doubts: tuple[str, ...]  # of it


@dataclass(frozen=True)
class Page:
    title: str
    summary: str
    left: int  # questions about an exercise that has changed since
    tasks: tuple[TaskPart, ...]


def page_for_teacher(given: Exercise, log: Path) -> bytes:
    """The page as HTML, of the questions in a file."""
    found = list(asked.texts(log))

    def part(task: Task) -> TeacherTask:
        seen = part_of(given, task, own(found, task, given), TEACHER)
        doubtful = doubts(own(found, task, given), task)
        return TeacherTask(**vars(seen), reference=references_of(task), doubts=doubtful)

    return drawn("asked_teacher.html", given, found, [part(task) for task in given.tasks])


def page_for_students(given: Exercise, log: Path) -> bytes:
    """The same without what speaks of the references."""
    found = list(asked.texts(log))
    parts = [part_of(given, task, own(found, task, given), STUDENTS) for task in given.tasks]
    return drawn("asked.html", given, found, parts)


def drawn(
    template: str, given: Exercise, found: Sequence[Text], parts: Sequence[TaskPart]
) -> bytes:
    known = sum(part.count for part in parts)
    left = sum(text.count for text in found) - known
    page = Page(given.title, counted(known, "question"), left, tuple(parts))
    return draw.environment().get_template(template).render(page=page).encode("utf-8", "replace")


def part_of(given: Exercise, task: Task, texts: Sequence[Text], reader: Reader) -> TaskPart:
    count = sum(text.count for text in texts)
    return TaskPart(task.title, count, mistakes(task, texts, given, reader))


def own(texts: Sequence[Text], task: Task, given: Exercise) -> list[Text]:
    """Those of a task as it and its rows are now."""
    references = {digest(by.reference) for by in task.references}
    return [
        text
        for text in texts
        if (text.task, text.exercise) == (task.label, given.digest) and text.reference in references
    ]


def doubts(texts: Sequence[Text], task: Task) -> tuple[str, ...]:
    """What the trials of a task's texts showed of its references alone."""
    sources = {digest(by.reference): by.source for by in task.references}
    return tuple(sentences.doubts((sources[text.reference], text.trial) for text in texts))


def mistakes(
    task: Task, texts: Sequence[Text], given: Exercise, reader: Reader
) -> tuple[Mistake, ...]:
    """By their outcomes, the most frequent first and what agrees last."""
    groups: dict[object, list[tuple[Text, Graded]]] = {}
    for text in texts:
        query = text.text.encode("utf-8", "replace")
        answer = Answer("", Submitted(query, query))
        # Where the reference is refused `ratest` isn't asked, and the record is empty.
        is_asked = text.ran.status != printed.REFUSED or text.ran.stderr
        ran = text.ran if is_asked else None
        one = grade(task, answer, given.tables, given.settings, ran, trial=text.trial)
        same = (
            one.grade,
            (
                None
                if one.grade == Grade.AGREES
                else one.trial.outcome
                if one.trial and one.is_tried
                else one.outcome
            ),
        )
        groups.setdefault(same, []).append((text, one))
    made = [mistake(members, given.tables, reader) for members in groups.values()]
    return tuple(sorted(made, key=lambda of: (of.kind == Grade.AGREES.css, -of.count)))


def mistake(
    members: Sequence[tuple[Text, Graded]], tables: Sequence[Table], reader: Reader
) -> Mistake:
    first = members[0][1]
    shown = members[:MOST_TEXTS] if reader.shows_text(first) else []
    return Mistake(
        css(first),
        reader.words(first),
        reader.printed(first),
        sum(text.count for text, _ in members),
        len(members),
        tuple(
            Shown(f"Asked {counted(text.count, 'time')}", text_of(of.answer.text.whole))
            for text, of in shown
        ),
        drawing_of(first, tables),
    )
