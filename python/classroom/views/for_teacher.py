"""The page of a class for its teacher: the grades by task, and each witness once with the answers
that share it."""
from __future__ import annotations

from collections.abc import Mapping, Sequence
from dataclasses import dataclass

from classroom.exercise.exercise import Task
from classroom.grading import grades_files
from classroom.grading.graded import Graded
from classroom.hints.mistake import Mistake
from classroom.marks.gradebook import Gradebook, outcome_name
from classroom.marks.mark import Mark
from classroom.marks.matrix import Matrix, Shown, matrix, shown_points
from classroom.verdict import sentences as trial_words
from classroom.verdict.decision import Grade
from classroom.views import draw, for_class
from classroom.views.for_class import Group, TaskPart, Text, counts_of, grades_of
from classroom.views.outcomes import TEACHER, grouped, text_of
from classroom.views.task_question import question


@dataclass(frozen=True)
class TeacherGroup(Group):
    """Answers to one task with one mistake, or with one outcome."""

    printed: str  # that is no answer of the program
    mistake: str  # which one it is; empty where it is not known
    place: str  # of it in these answers
    repairs: tuple[Text, ...]  # the first answer as it would be right
    outcome: str  # as class/marks.csv names it


@dataclass(frozen=True)
class TeacherTask(TaskPart):
    groups: tuple[TeacherGroup, ...]
    reference: str
    doubts: tuple[str, ...]  # of the reference


@dataclass(frozen=True)
class TeacherPage(for_class.Page):
    tasks: tuple[TeacherTask, ...]
    matrix: Matrix


def page_of(book: Gradebook, found: Mapping[str, Mistake] = {}) -> bytes:
    """The page as HTML. `found` are the mistakes of answers, by the keys of their records."""
    template = draw.environment().get_template("teacher.html")
    return template.render(page=page(book, found)).encode("utf-8", "replace")


def page(book: Gradebook, mistakes: Mapping[str, Mistake]) -> TeacherPage:
    given, graded = book.given, book.graded
    present = grades_of(graded)
    parts: list[TeacherTask] = []
    drawn: dict[tuple[str, str], Shown] = {}
    for number, task in enumerate(given.tasks, 1):
        own = [of for of in graded if of.task.name == task.name]
        found = grouped(own, mistakes)
        groups = [
            group(of, f"task-{number}-{at}", present, book, mistakes.get(of[0].key))
            for at, of in enumerate(found, 1)
        ]
        parts.append(
            TeacherTask(
                task.title,
                question(task),
                counts_of(own, present),
                tuple(groups),
                references_of(task),
                tuple(trial_words.doubts(grades_files.trials(own))),
            )
        )
        drawn |= {
            (of.task.name, of.answer.name): drawn_mark(of, book.mark(of), made)
            for members, made in zip(found, groups)
            for of in members
        }
    return TeacherPage(
        given.title,
        grades_files.summary(graded),
        tuple(map(str, present)),
        tuple(parts),
        matrix(book, drawn),
    )


def references_of(task: Task) -> str:
    """All right queries of a task, each further one below the name of its file."""
    further = [f"-- {other.source}\n{text_of(other.reference)}" for other in task.others]
    return "\n\n".join([text_of(task.reference), *further])


def drawn_mark(of: Graded, mark: Mark, group: Group) -> Shown:
    return Shown(group.anchor, group.grade_number, group.kind, group.words, shown_points(mark))


def group(
    members: Sequence[Graded],
    anchor: str,
    present: Sequence[Grade],
    book: Gradebook,
    mistake: Mistake | None,
) -> TeacherGroup:
    first = members[0]
    seen = for_class.group(members, anchor, present, book.given.tables, TEACHER, True)
    name, is_tried = (mistake.name, mistake.is_tried) if mistake else ("", False)
    return TeacherGroup(
        **vars(seen),
        printed=TEACHER.printed(first),
        mistake=f"{name} (tried, not proved)" if name and is_tried else name,
        place=mistake.where if mistake else "",
        repairs=tuple(
            Text(f"With {one.mistake}", one.text) for one in (mistake.repairs if mistake else ())
        ),
        outcome=outcome_name(first),
    )
