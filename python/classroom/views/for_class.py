"""The page of a class for its students: what went wrong in each task, and on which rows.

It has no reference, no points, and no text that may be as good as a reference: of the answers only
those that surely differ. Nobody's name is in it, unless the teacher wants that."""
from __future__ import annotations

from collections.abc import Sequence
from dataclasses import dataclass

from classroom.grading import grades_files
from classroom.grading.graded import Graded
from classroom.marks.gradebook import Gradebook
from classroom.sql.schema import Table
from classroom.verdict.decision import Grade
from classroom.views import draw
from classroom.views.draw import Drawing, counted
from classroom.views.outcomes import (
    STUDENTS,
    Reader,
    css,
    drawing_of,
    grouped,
    remarks,
    text_of,
    title,
    told,
)
from classroom.views.task_question import question


@dataclass(frozen=True)
class Text:
    """The bytes of one or more answers."""

    title: str
    text: str


@dataclass(frozen=True)
class Group:
    """Answers to one task with one outcome."""

    anchor: str
    grade_number: int
    kind: str
    words: str
    names: tuple[str, ...]  # none where they are left out
    count: int
    texts: tuple[Text, ...]
    told: str
    remarks: tuple[str, ...]
    drawing: Drawing | None


@dataclass(frozen=True)
class TaskPart:
    name: str
    question: str  # as HTML; empty where there is none
    counts: tuple[int, ...]  # of answers, by the grades of the page
    groups: Sequence[Group]


@dataclass(frozen=True)
class Page:
    title: str
    summary: str
    grades: tuple[str, ...]
    tasks: Sequence[TaskPart]


def page_of(book: Gradebook, has_names: bool = False) -> bytes:
    """The page as HTML; `has_names` shows the names of the answers."""
    template = draw.environment().get_template("students.html")
    return template.render(page=page(book, has_names)).encode("utf-8", "replace")


def page(book: Gradebook, has_names: bool) -> Page:
    present = grades_of(book.graded)
    parts = []
    for number, task in enumerate(book.given.tasks, 1):
        own = [of for of in book.graded if of.task.name == task.name]
        groups = [
            group(of, f"task-{number}-{at}", present, book.given.tables, STUDENTS, has_names)
            for at, of in enumerate(grouped(own, {}), 1)
        ]
        parts.append(TaskPart(task.title, question(task), counts_of(own, present), tuple(groups)))
    return Page(
        book.given.title,
        grades_files.summary(book.graded),
        tuple(map(str, present)),
        tuple(parts),
    )


def grades_of(graded: Sequence[Graded]) -> list[Grade]:
    """Those that an answer has, in their order."""
    return [grade for grade in Grade if any(of.grade == grade for of in graded)]


def counts_of(graded: Sequence[Graded], present: Sequence[Grade]) -> tuple[int, ...]:
    return tuple(sum(of.grade == grade for of in graded) for grade in present)


def group(
    members: Sequence[Graded],
    anchor: str,
    present: Sequence[Grade],
    tables: Sequence[Table],
    reader: Reader,
    has_names: bool,
) -> Group:
    first = members[0]
    texts: dict[bytes, list[str]] = {}
    for of in members:
        if (of.ran is not None or of.is_tried) and reader.shows_text(of):
            texts.setdefault(of.answer.text.whole, []).append(of.answer.label)
    return Group(
        anchor,
        present.index(first.grade) + 1,
        css(first),
        reader.words(first),
        tuple(of.answer.label for of in members) if has_names else (),
        len(members),
        tuple(
            Text(title(labels) if has_names else counted(len(labels), "answer"), text_of(text))
            for text, labels in sorted(texts.items(), key=lambda item: -len(item[1]))
        ),
        told(first),
        tuple(
            f"{', '.join(names) if has_names else counted(len(names), 'answer')}: {remark}."
            for remark, names in remarks(members).items()
        ),
        drawing_of(first, tables),
    )
