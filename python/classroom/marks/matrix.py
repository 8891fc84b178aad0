"""The grades of a class as a table, a line a student and a column a task."""
from __future__ import annotations

from collections.abc import Mapping
from dataclasses import dataclass

from classroom.marks.gradebook import Gradebook, Standing, cell
from classroom.marks.mark import Mark, shown, total


@dataclass(frozen=True)
class Shown:
    """The mark of a student for a task, as it is drawn: the points, which lead to the verdict."""

    anchor: str  # of the outcome on the page; empty where there is no answer
    grade_number: int  # among the grades of the page, from 1
    kind: str
    words: str
    points: str


@dataclass(frozen=True)
class Line:
    """A student."""

    name: str
    marks: tuple[Shown | None, ...]  # None where nothing was handed in and no mark was given
    points: str


@dataclass(frozen=True)
class Matrix:
    """The whole table."""

    tasks: tuple[str, ...]
    most: tuple[str, ...]  # the points that each may bring, and all together
    lines: tuple[Line, ...]
    sums: tuple[str, ...]  # the points of all students by task, and all together
    right: tuple[int, ...]  # the students with all points, by task


def matrix(book: Gradebook, drawn: Mapping[tuple[str, str], Shown]) -> Matrix:
    """The table; `drawn` are the marks of answers, by the names of tasks and answers."""
    lines = tuple(
        Line(
            one.student.name,
            tuple(
                drawn[of.task.name, of.answer.name] if of else without_answer(mark)
                for of, mark in zip(one.answers, one.marks)
            ),
            points_of(one),
        )
        for one in book.standings
    )
    columns = [[one.marks[at] for one in book.standings] for at in range(len(book.given.tasks))]
    sums = [total(column) for column in columns]
    return Matrix(
        tuple(task.label for task in book.given.tasks),
        (*(shown(most) for most in book.most_by_task), shown(book.most)),
        lines,
        (*map(shown, sums), shown(total(mark for column in columns for mark in column))),
        tuple(sum(mark is not None and mark.has_all for mark in column) for column in columns),
    )


def without_answer(mark: Mark | None) -> Shown | None:
    return None if mark is None or mark.is_open else Shown("", 0, "", "", cell(mark))


def points_of(one: Standing) -> str:
    return f"{shown(one.points)} + ?" if one.open else shown(one.points)


def shown_points(mark: Mark) -> str:
    """The points, or a question mark where a person grades."""
    return "?" if mark.is_open else cell(mark)
