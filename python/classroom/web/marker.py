"""What the page of `classroom mark` changes: lines of class/marks.csv, one after another, and the
marks that come of them.

The answers and their groups are those of the start. The file is read at each step, since a second
page, another machine or an editor may have written it. """
from __future__ import annotations

import hashlib
import threading
from collections.abc import Callable, Mapping, Sequence
from dataclasses import dataclass, replace
from datetime import datetime, timezone

from classroom.base import files
from classroom.base.errors import Fault
from classroom.exercise.exercise import Task
from classroom.marks import hand, mark_groups, write_marks
from classroom.marks.gradebook import Gradebook, most_of
from classroom.marks.hand import Line
from classroom.marks.mark import About, Mark
from classroom.marks.mark_groups import Group

MOST_UNDONE = 1000


class Changed(Fault):
    """Somebody else has changed the line meanwhile."""


@dataclass(frozen=True)
class State:
    """The file at one moment, and the marks by it."""

    raw: bytes | None
    lines: Sequence[Line]
    book: Gradebook

    marks: Mapping[tuple[str, str], Mark]  # by tasks and students

    @property
    def digest(self) -> str:
        return digest_of(self.raw or b"")

    def now(self, group: Group) -> Group:
        """A group with the marks of its answers as they are."""
        marks = ((one, self.marks.get((one.task.name, one.student))) for one in group.members)
        members = tuple(replace(one, mark=mark or one.mark) for one, mark in marks)
        return replace(group, members=members)


@dataclass(frozen=True)
class Done:
    """A change that can be undone."""

    group: int
    number: int
    new: Line | None
    old: Line | None


class Marker:
    """The groups of an exercise, by numbers from 0, and its file of marks; for many threads."""

    def __init__(self, make: Callable[[], Gradebook], task: Task | None, by: str) -> None:
        """`make` gives the marks by the file as it is; `task` is the only one that is marked."""
        self._make = make
        self._lock = threading.Lock()
        self._done: list[Done] = []
        self._state: State | None = None
        self.by = by
        self.given = make().given
        self.most = most_of(self.given)
        self.path = self.given.folder / hand.FILE
        state = self.state()
        self.groups = [
            group for group in mark_groups.groups(state.book) if task in (None, group.task)
        ]

    def state(self) -> State:
        """As the file is now; a Fault where it has one."""
        raw = files.bounded(self.path, hand.MOST_BYTES)
        with self._lock:
            if self._state is None or self._state.raw != raw:
                lines = hand.lines_of_file(raw, self.path, self.most)
                book = self._make()
                marks = {
                    (one.task.name, one.student): one.mark for one in mark_groups.members(book)
                }
                self._state = State(raw, lines, book, marks)
            return self._state

    def last_state(self) -> tuple[State, str]:
        """As the file is, or as it was before it had a fault, which is told."""
        try:
            return self.state(), ""
        except Fault as fault:
            if self._state is None:
                raise
            return self._state, str(fault)

    def wanted(self, group: Group, number: int) -> tuple[About, str, str]:
        """What a line has to be about: of a group, or of one of its answers by the number from 1.
        With the text of the answer where it is a student's."""
        if number or group.about == About.STUDENT:
            member = group.members[max(number, 1) - 1]
            return About.STUDENT, member.student, member.text
        return group.about, group.value, ""

    def line_of(
        self, group: Group, number: int, points: str, comment: str = "", rule: str = ""
    ) -> Line:
        """A line that says so, by this marker; a Fault where it can't be written."""
        about, value, text = self.wanted(group, number)
        values = {
            "task": group.task.label,
            mark_groups.noun(about): value,
            "points": points,
            "comment": comment,
            "rule": rule,
            "by": self.by,
            "time": datetime.now(timezone.utc).isoformat(timespec="seconds"),
        }
        if text:
            values["text"] = text
        return write_marks.line_of(values, self.most)

    def line(self, state: State, group: Group, number: int) -> Line | None:
        """The line that is about it."""
        return found(state.lines, self.line_of(group, number, "0"))

    def put(self, at: int, number: int, line: Line, seen: str) -> None:
        """Writes a line in place of the one that was seen; Changed, and nothing is written, where
        another stands there by now."""
        self._change(at, number, line, line, seen)

    def remove(self, at: int, number: int, seen: str) -> None:
        self._change(at, number, self.line_of(self.groups[at], number, "0"), None, seen)

    def _change(self, at: int, number: int, like: Line, new: Line | None, seen: str) -> None:
        before: list[Line | None] = []

        def change(lines: Sequence[Line]) -> Sequence[Line]:
            old = found(lines, like)
            if digest_of_line(old) != seen:
                raise Changed("class/marks.csv has changed")
            before[:] = [old]
            rest = [line for line in lines if line is not old]
            return [*rest, new] if new else rest

        write_marks.change(self.path, self.most, change)
        with self._lock:
            self._done.append(Done(at, number, new, before[0]))
            del self._done[:-MOST_UNDONE]

    def undo(self) -> Done | None:
        """Takes the last change back, None where there is none; Changed where another line stands
        there by now."""
        with self._lock:
            if not self._done:
                return None
            done = self._done.pop()
        like = done.new or done.old
        if like:
            self._take_back(done, like)
        return done

    def _take_back(self, done: Done, like: Line) -> None:
        def change(lines: Sequence[Line]) -> Sequence[Line]:
            now = found(lines, like)
            if digest_of_line(now) != digest_of_line(done.new):
                raise Changed("class/marks.csv has changed")
            rest = [line for line in lines if line is not now]
            return [*rest, done.old] if done.old else rest

        try:
            write_marks.change(self.path, self.most, change)
        except Changed:
            raise
        except Fault:
            with self._lock:
                self._done.append(done)
            raise

    @property
    def can_undo(self) -> bool:
        return bool(self._done)

    def next_open(self, state: State, at: int) -> int | None:
        """The next group after this one in which something is open, from the first again behind the
        last; None where nothing is."""
        order = [*range(at + 1, len(self.groups)), *range(at + 1)]
        return next((other for other in order if state.now(self.groups[other]).open), None)


def found(lines: Sequence[Line], like: Line) -> Line | None:
    return next((line for line in lines if line.is_about_the_same(like)), None)


def digest_of(raw: bytes) -> str:
    return hashlib.sha256(raw).hexdigest()[:16]


def digest_of_line(line: Line | None) -> str:
    """Of all that it says; of none it is empty."""
    return digest_of("\0".join(line.cells).encode()) if line else ""
