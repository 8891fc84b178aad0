"""The answers that a person marks together: those with one mistake, else with one outcome, else
with one text."""
from __future__ import annotations

from collections.abc import Iterator
from dataclasses import dataclass

from classroom.base.errors import Fault, shown
from classroom.exercise.exercise import Task
from classroom.grading.graded import Graded
from classroom.marks.gradebook import Gradebook, outcome_name, text_name
from classroom.marks.mark import About, Mark
from classroom.people.identity import key
from classroom.verdict.decision import Grade
from ratest.draw import counted

MOST_NAMES = 8
TEXT_DIGITS = 12  # of a text's digest in class/marks.csv
UNPLACED = "no answer, and a file that could not be put to a task"
# Who has these without a counterexample has them for the same reason.
SAME = (Grade.AGREES, Grade.NO_DIFFERENCE)


@dataclass(frozen=True)
class Member:
    """A student with the mark to one task."""

    task: Task
    student: str  # the id
    mark: Mark
    of: Graded | None  # None where there is no answer

    @property
    def text(self) -> str:
        """The digest as class/marks.csv has it; empty where no text was read."""
        return text_name(self.of)[:TEXT_DIGITS] if self.of else ""


@dataclass(frozen=True)
class Group:
    """Answers to one task, and what they have in common."""

    task: Task
    about: About
    value: str
    members: tuple[Member, ...]

    @property
    def open(self) -> int:
        """How many of its answers are open."""
        return sum(member.mark.is_open for member in self.members)

    @property
    def reason(self) -> str:
        """Why the first one that is open is so, else its verdict."""
        member = next((one for one in self.members if one.mark.is_open), self.members[0])
        if member.of is None:
            return UNPLACED
        if member.mark.is_open and member.of.share is not None:
            return member.mark.late
        return member.of.reason

    def told(self) -> str:
        """A line of a list."""
        names = [one.student for one in self.members if one.mark.is_open]
        more = f" and {len(names) - MOST_NAMES} more" if len(names) > MOST_NAMES else ""
        value = "" if self.about == About.STUDENT else f" of the {noun(self.about)} {self.value}"
        return (
            f"task {shown(self.task.label)}: {counted(len(names), 'answer')}{shown(value)}:"
            f" {shown(self.reason)} ({shown(*names[:MOST_NAMES])}{more})"
        )


def noun(about: About) -> str:
    """As a column of class/marks.csv."""
    return about.name.lower()


def members(book: Gradebook) -> Iterator[Member]:
    """All who have a mark: each answer, and who has a mark without one; students in the order of
    the class list, and tasks in theirs."""
    for at, task in enumerate(book.given.tasks):
        for standing in book.standings:
            mark, of = standing.marks[at], standing.answers[at]
            if mark:
                yield Member(task, standing.student.id, mark, of)


def groups(book: Gradebook) -> list[Group]:
    """By tasks; those with something open first, then the most frequent ones."""
    found: dict[tuple[str, About, str], list[Member]] = {}
    for member in members(book):
        found.setdefault((member.task.name, *common(book, member)), []).append(member)
    made = [
        Group(some[0].task, about, value, tuple(some)) for (_, about, value), some in found.items()
    ]
    order = {task.name: at for at, task in enumerate(book.given.tasks)}
    return sorted(made, key=lambda one: (order[one.task.name], not one.open, -len(one.members)))


def common(book: Gradebook, member: Member) -> tuple[About, str]:
    """By what an answer belongs to others."""
    of = member.of
    if of is None or not member.text:
        return About.STUDENT, key(member.student)
    mistake = book.mistakes.get(of.record, "")
    if mistake:
        return About.MISTAKE, mistake
    if of.rows is not None or of.grade in SAME:
        return About.OUTCOME, outcome_name(of)
    return About.TEXT, member.text


def named(book: Gradebook, member: Member, about: About) -> str:
    """What a line has to say so that it is about this answer and those that are alike in this; a
    Fault where the answer has no such thing."""
    who = f"the answer of {shown(member.student)} to task {shown(member.task.label)}"
    if about == About.STUDENT:
        return member.student
    if member.of is None or not member.text:
        raise Fault(f"{who} has no text that was read")
    if about == About.TEXT:
        return member.text
    if about == About.OUTCOME:
        return outcome_name(member.of)
    mistake = book.mistakes.get(member.of.record, "")
    if not mistake:
        raise Fault(f"no mistake of {who} is known: classroom mistakes looks for them")
    return mistake
