"""Who has which points: the students of a class against its tasks.

Students are those of the class list, in its order, and then those who answered and are not in it,
by name. Where there is no list each name of an answer is a student. """
from __future__ import annotations

import csv
import hashlib
import io
from collections import Counter
from collections.abc import Callable, Container, Iterable, Iterator, Mapping, Sequence
from dataclasses import dataclass, field
from decimal import Decimal

from classroom.base.csvcells import safe
from classroom.base.errors import shown
from classroom.exercise.collected import PLACED, Collected, read_collected, unplaced_files
from classroom.exercise.exercise import Exercise, Task
from classroom.grading.graded import Graded
from classroom.marks import hand
from classroom.marks.late import late
from classroom.marks.mark import ZERO, About, Late, Mark, exact, mark, total
from classroom.marks.mark import shown as shown_points
from classroom.people.identity import key
from classroom.people.roster import ClassList, Student
from classroom.verdict.decision import Grade
from ratest.draw import counted

BY_HAND = "by hand"


@dataclass(frozen=True)
class Standing:
    """A student with the answer and the mark to each task. Without an answer there is a mark only
    where a line of class/marks.csv gives one, or a file of the student could not be placed."""

    student: Student
    answers: tuple[Graded | None, ...]
    marks: tuple[Mark | None, ...]
    unplaced: tuple[str, ...] = ()  # files of the student that are no task's answer

    @property
    def points(self) -> Decimal:
        """Of the marks that are not open."""
        return total(self.marks)

    @property
    def open(self) -> int:
        """How many answers are to be graded by hand."""
        return sum(one is not None and one.is_open for one in self.marks)


@dataclass(frozen=True)
class Gradebook:
    """The marks of a class."""

    given: Exercise
    graded: tuple[Graded, ...]
    standings: tuple[Standing, ...]
    marks: Mapping[tuple[str, str], Mark]  # by the names of tasks and answers
    notes: tuple[str, ...] = ()  # lines of class/marks.csv that don't count, and why
    mistakes: Mapping[str, str] = field(default_factory=dict)  # their names, by records of answers
    # The lines that apply to an answer, by the names of tasks and answers; the first decides.
    lines: Mapping[tuple[str, str], tuple[hand.Line, ...]] = field(default_factory=dict)
    # By the labels of tasks and the keys of students, the line that was for an earlier text.
    earlier: Mapping[tuple[str, str], hand.Line] = field(default_factory=dict)
    gone: tuple[str, ...] = ()  # tasks that answers were placed in and that are not there, told

    def mark(self, of: Graded) -> Mark:
        return self.marks[of.task.name, of.answer.name]

    @property
    def open(self) -> list[Graded]:
        """The answers that a person is to grade."""
        return [one for one in self.graded if self.mark(one).is_open]

    @property
    def most_by_task(self) -> list[Decimal]:
        return [most_points(task) for task in self.given.tasks]

    @property
    def most(self) -> Decimal:
        """The points that a student may have."""
        return sum(self.most_by_task, ZERO)


def gradebook(
    given: Exercise,
    graded: Sequence[Graded],
    listed: ClassList,
    mistakes: Mapping[str, str] = {},
    is_by_files: bool = False,
) -> Gradebook:
    """The marks of these answers; `mistakes` are the names of those that are known, by the keys of
    the answers' records. Where `is_by_files`, students have the names of their files, and who has
    none is not there. A Fault where class/marks.csv has one."""
    most = most_of(given)
    lines = Lines(check_marks(given))
    handed = read_collected(given.folder)

    def late_of(one: Graded) -> Late:
        name = key(one.answer.label)
        line = handed.get((one.task.label, name))
        student = listed.with_id(name)
        closes = given.settings.closes
        own = student.closing(closes) if student else closes
        return late(given.settings.late, line.late if line else "", own)

    applied = {
        (one.task.name, one.answer.name): tuple(lines.about(one, mistakes.get(one.record, "")))
        for one in graded
    }
    marks = {
        (one.task.name, one.answer.name): mark(
            most[one.task.label],
            None if one.share is None else exact(one.share),
            one.decided_by,
            [line.given for line in applied[one.task.name, one.answer.name]],
            late_of(one),
        )
        for one in graded
    }
    standings = tuple(
        _standings(given, graded, ClassList() if is_by_files else listed, marks, lines, most)
    )
    return Gradebook(
        given,
        tuple(graded),
        standings,
        marks,
        tuple(lines.unused()),
        mistakes,
        applied,
        lines.earlier,
        tuple(gone_tasks(handed.values(), most)),
    )


def gone_tasks(handed: Iterable[Collected], known: Container[str]) -> Iterator[str]:
    """A line for each task that was renamed or removed after answers were placed in it."""
    counts = Counter(one.task for one in handed if one.state == PLACED and one.task not in known)
    for task, count in counts.items():
        yield (
            f"there is no task {shown(task)}: {counted(count, 'answer')} of class/collected.csv"
            f" {'belongs' if count == 1 else 'belong'} to it, and {'has' if count == 1 else 'have'}"
            " no mark"
        )


def check_marks(given: Exercise) -> tuple[hand.Line, ...]:
    """The lines of class/marks.csv; a Fault where one is wrong."""
    return hand.read(given.folder / hand.FILE, most_of(given))


def most_of(given: Exercise) -> dict[str, Decimal]:
    """The points of the tasks, by their labels."""
    return {task.label: most_points(task) for task in given.tasks}


def _standings(
    given: Exercise,
    graded: Sequence[Graded],
    listed: ClassList,
    marks: Mapping[tuple[str, str], Mark],
    lines: Lines,
    most: Mapping[str, Decimal],
) -> Iterator[Standing]:
    by_key: dict[str, dict[str, Graded]] = {}
    names: dict[str, str] = {}
    for of in graded:
        names.setdefault(key(of.answer.label), of.answer.label)
        by_key.setdefault(key(of.answer.label), {})[of.task.name] = of
    unplaced = unplaced_files(given.folder)
    for name, one in unplaced.items():
        names.setdefault(name, one.student)
    others = [Student(name, name) for name in names.values() if not listed.with_id(name)]
    for student in (*listed.students, *others):
        own = key(student.id)
        files = unplaced[own].files if own in unplaced else ()
        answers = tuple(by_key.get(own, {}).get(task.name) for task in given.tasks)
        yield Standing(
            student,
            answers,
            tuple(
                (
                    marks[of.task.name, of.answer.name]
                    if of
                    else lines.without_answer(task, own, most[task.label], bool(files))
                )
                for task, of in zip(given.tasks, answers)
            ),
            files,
        )


class Lines:
    """The lines of class/marks.csv, and which of them count."""

    def __init__(self, lines: Iterable[hand.Line]) -> None:
        self._lines: dict[tuple[str, About], list[hand.Line]] = {}
        for line in lines:
            self._lines.setdefault((line.task, line.given.about), []).append(line)
        self._used: set[int] = set()
        self.earlier: dict[tuple[str, str], hand.Line] = {}  # whose student has another text now

    def about(self, of: Graded, mistake: str) -> Iterator[hand.Line]:
        """The lines that apply to an answer."""
        text = text_name(of)
        student = key(of.answer.label)
        yield from self._of(of.task, About.STUDENT, lambda line: line.value == student, text)
        yield from self._of(of.task, About.TEXT, lambda line: text.startswith(line.value))
        yield from self._of(of.task, About.MISTAKE, lambda line: line.value == mistake)
        yield from self._of(of.task, About.OUTCOME, lambda line: line.value == outcome_name(of))

    def _of(
        self, task: Task, about: About, fits: Callable[[hand.Line], bool], text: str | None = None
    ) -> Iterator[hand.Line]:
        """`text` is the digest of the text that a student's line has to be for."""
        for line in self._lines.get((task.label, about), ()):
            if fits(line):
                if text is not None and not text.startswith(line.text):
                    self.earlier[task.label, line.value] = line
                else:
                    self._used.add(line.number)
                    yield line

    def without_answer(
        self, task: Task, student: str, most: Decimal, is_unplaced: bool
    ) -> Mark | None:
        """The mark of a student who has no answer to a task."""
        found = [
            line.given
            for line in self._of(task, About.STUDENT, lambda line: line.value == student, "")
        ]
        return mark(most, None, "", found) if found or is_unplaced else None

    def unused(self) -> Iterator[str]:
        """The lines that don't count, with why, in the order of the file."""
        lines = [line for group in self._lines.values() for line in group]
        for line in sorted(lines, key=lambda line: line.number):
            if line.number in self._used:
                continue
            if self.earlier.get((line.task, line.value)) is line:
                why = f"{shown(line.student)}, task {shown(line.task)}: the mark was for an earlier"
                why += " text"
            elif line.given.about == About.STUDENT:
                why = f"there is no student {shown(line.student)}"
            else:
                why = (
                    f"no answer to task {shown(line.task)} has the {line.given.about.name.lower()}"
                )
                why += f" {shown(line.value)}"
            yield f"{hand.FILE}, line {line.number} does not count: {why}"


def most_points(task: Task) -> Decimal:
    return exact(task.settings.points)


def text_name(of: Graded) -> str:
    """The SHA-256 of the text, empty where the file was not read."""
    return "" if of.answer.fault else hashlib.sha256(of.answer.text.whole).hexdigest()


def outcome_name(of: Graded) -> str:
    """The verdict, and a digest of what belongs to it: the rows, or the fault. Answers that are
    alike in both have one outcome."""
    if of.grade == Grade.AGREES:
        return str(of.grade)
    found = of.trial.outcome if of.trial and of.is_tried else of.outcome
    whole = repr((of.is_tried, found, of.fault)).encode("utf-8", "surrogatepass")
    return f"{of.grade} {hashlib.sha256(whole).hexdigest()[:8]}"


def cell(one: Mark | None) -> str:
    """The points; BY_HAND where a person is to give them, nothing where nothing was handed in."""
    if one is None:
        return ""
    return BY_HAND if one.points is None else shown_points(one.points)


def class_csv(book: Gradebook) -> bytes:
    """A line a student: id, name, a column a task, the points in all, and how many answers are
    still open."""
    text = io.StringIO(newline="")
    lines = csv.writer(text, lineterminator="\n")
    tasks = (safe(task.label) for task in book.given.tasks)
    lines.writerow(["id", "name", *tasks, "points", "open"])
    for one in book.standings:
        lines.writerow(
            [
                safe(one.student.id),
                safe(one.student.name),
                *map(cell, one.marks),
                shown_points(one.points),
                one.open,
            ]
        )
    return text.getvalue().encode("utf-8", "replace")
