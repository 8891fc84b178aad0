"""Files of no platform: whose they are by their own names, or by a pattern that a teacher gives."""
from __future__ import annotations

import re
from collections.abc import Callable, Sequence

from classroom.people.identity import composed
from classroom.people.roster import ClassList, Student
from classroom.platforms.archive import Member
from classroom.platforms.handed import Handed
from classroom.platforms.task_names import WORDS, stem_of, task_named, without_copies, words_of

# What stands in front of a task's name and is no name of a student.
FRONT = frozenset(("task", "aufgabe", "exercise", "question", "problem", "q", "a", "nr", "no"))
GROUPS = ("student", "file")


def of_listed(member: Member, students: ClassList, tasks: Sequence[str]) -> Handed | None:
    """A file whose name says one student of the class list and one task without doubt."""
    stem = without_copies(stem_of(member.path[-1]))
    given = words_of(stem)
    found: dict[str, tuple[Student, list[str]]] = {}
    for student in students.students:
        for name in filter(None, (student.id, student.login, student.email)):
            wanted = words_of(name)
            rest = without_words(given, wanted)
            if wanted and rest is not None:
                found[student.id] = (student, wanted)
    # Whose words are part of another's is not meant where that one stands there.
    longest = [
        student
        for student, words in found.values()
        if not any(
            other.id != student.id
            and len(more) > len(words)
            and without_words(more, words) is not None
            for other, more in found.values()
        )
    ]
    if len(longest) != 1:
        return None
    student, words = found[longest[0].id]
    rest = without_words(given, words) or []
    task = task_named("-".join(rest), tasks) if rest else None
    return task_file(member, student.id, task) if task else None


def of_anybody(member: Member, tasks: Sequence[str]) -> Handed | None:
    """A file whose name is a student's and a task's, as `anna-1.sql`: what is left without the task
    is the student."""
    stem = without_copies(stem_of(member.path[-1]))
    words = list(WORDS.finditer(stem))
    task = task_named(stem, tasks)
    if task is None:
        return None
    size = len(words_of(task))
    for at in range(len(words) - size, -1, -1):
        if words_of(stem[words[at].start() : words[at + size - 1].end()]) == words_of(task):
            begin = at - 1 if at and words[at - 1][0].casefold() in FRONT else at
            before, after = words[:begin], words[at + size :]
            if bool(before) != bool(after):
                left = before or after
                student = composed(stem[left[0].start() : left[-1].end()])
                return task_file(member, student, task)
    return None


def task_file(member: Member, student: str, task: str) -> Handed:
    """The file as one that is called as the task is, since its own name says the student too."""
    ending = member.path[-1].strip().rpartition(".")[2]
    return Handed(member, "id", student, student, f"{task}.{ending}")


def without_words(given: Sequence[str], wanted: Sequence[str]) -> list[str] | None:
    """The words without the first place at which others stand one after another; None where they
    stand at none."""
    for at in range(len(given) - len(wanted) + 1):
        if given[at : at + len(wanted)] == list(wanted):
            return [*given[:at], *given[at + len(wanted) :]]
    return None


def by_pattern(pattern: re.Pattern[str]) -> Callable[[Member], Handed | None]:
    """Reads a file by its whole path, of which the pattern's groups are the student and the file."""

    def of_member(member: Member) -> Handed | None:
        found = pattern.fullmatch("/".join(member.path))
        if not found or not found["student"] or not found["file"]:
            return None
        file = found["file"].rpartition("/")[2]
        return Handed(member, "id", found["student"], composed(found["student"]), file)

    return of_member
