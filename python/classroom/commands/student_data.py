"""What an exercise has of one student: its list, a copy of it, and its removal."""
from __future__ import annotations

import io
import json
import os
import sqlite3
import zipfile
from collections.abc import Callable, Iterator
from contextlib import closing
from dataclasses import asdict, dataclass
from pathlib import Path

from classroom.base.errors import Fault, shown
from classroom.base.files import write
from classroom.exercise.collected import Collected, read_collected, write_collected
from classroom.exercise.exercise import ANSWERS, Exercise
from classroom.marks import hand, write_marks
from classroom.marks.gradebook import most_of
from classroom.people.identity import key
from classroom.people.roster import ClassList
from classroom.platforms.collect import OLDER
from classroom.platforms.placed_by_hand import ByHand, read_placed, write_placed
from classroom.views.draw import counted
from classroom.web.forget import emptied
from classroom.web.hand_ins import choices
from classroom.web.questions import rows

# What is made of the whole class, and made anew by `grade`, `mistakes` and `feedback`.
TABLES = (
    "grades.csv",
    "class.csv",
    "results.json",
    "teacher.html",
    "students.html",
    "mistakes.csv",
    "answers.json",
    "written.json",
)
FEEDBACK = "feedback"


@dataclass(frozen=True)
class HandedIn:
    """A text that the student handed in at the page of `serve`."""

    number: int
    login: str
    time: str
    task: str
    text: str


@dataclass(frozen=True)
class StudentData:
    """What an exercise has of a student, but for the line of the class list."""

    given: Exercise
    listed: ClassList
    id: str
    store: Path  # of the hand-ins; it may not be there
    files: tuple[Path, ...]  # of this student alone
    tables: tuple[Path, ...]  # of the whole class
    collected: tuple[Collected, ...]  # lines of class/collected.csv
    placed: dict[str, ByHand]  # of class/placed.csv
    marks: tuple[hand.Line, ...]  # of class/marks.csv
    hand_ins: tuple[HandedIn, ...]

    def lines(self) -> Iterator[str]:
        """What there is, in words."""
        for path in self.files:
            yield shown(os.path.relpath(path, self.given.folder))
        for count, place in (
            (len(self.collected), "class/collected.csv"),
            (len(self.placed), "class/placed.csv"),
            (len(self.marks), "class/marks.csv, with the comments"),
        ):
            if count:
                yield f"{counted(count, 'line')} of {place}"
        if self.hand_ins:
            yield f"{counted(len(self.hand_ins), 'text')} handed in at the page"

    def is_empty(self) -> bool:
        return not any(self.lines())

    def export(self, path: Path) -> None:
        """A zip file with all of it."""
        content = io.BytesIO()
        with zipfile.ZipFile(content, "w", zipfile.ZIP_DEFLATED) as made:
            for file in self.files:
                if not file.is_symlink():
                    made.writestr(os.path.relpath(file, self.given.folder), file.read_bytes())
            columns = [dict(zip(hand.COLUMNS, line.cells)) for line in self.marks]
            for name, values in (
                ("collected.json", [asdict(line) for line in self.collected]),
                ("placed.json", {file: to._asdict() for file, to in self.placed.items()}),
                ("marks.json", columns),
                ("handed-in.json", [asdict(one) for one in self.hand_ins]),
            ):
                if values:
                    made.writestr(name, json.dumps(values, ensure_ascii=False, indent=1))
        write(path, content.getvalue())

    def remove(self) -> None:
        """Takes all of it out, and the tables of the class, which name the student."""
        folder = self.given.folder
        if self.hand_ins:
            self._remove_hand_ins()
        if self.marks:
            gone = {line.number for line in self.marks}
            write_marks.change(
                folder / hand.FILE,
                most_of(self.given),
                lambda before: [line for line in before if line.number not in gone],
            )
        if self.placed:
            kept = read_placed(folder, [task.label for task in self.given.tasks], self.listed)
            write_placed(folder, {file: to for file, to in kept.items() if file not in self.placed})
        if self.collected:
            lines = read_collected(folder).values()
            write_collected(folder, [line for line in lines if line not in self.collected])
        for path in (*self.files, *self.tables):
            path.unlink(missing_ok=True)

    def _remove_hand_ins(self) -> None:
        logins = {(one.login,) for one in self.hand_ins}
        try:
            with closing(sqlite3.connect(self.store, timeout=20)) as database, database:
                database.execute("PRAGMA secure_delete = ON")
                database.executemany("DELETE FROM handed_in WHERE login = ?", logins)
                if choices(self.store):
                    database.executemany("DELETE FROM chosen WHERE login = ?", logins)
        except sqlite3.Error as fault:
            raise Fault(f"{shown(str(self.store))}: {fault}") from None
        emptied(self.store)


def data_of(given: Exercise, listed: ClassList, name: str, store: Path) -> StudentData:
    """All that an exercise has of the student with this id, e-mail address or login."""
    known = listed.known("id", name)
    own = known.id if known else name

    def is_own(word: str) -> bool:
        found = listed.known("id", word)
        return key(found.id if found else word) == key(own)

    folder = given.folder
    labels = [task.label for task in given.tasks]
    marks = hand.read(folder / hand.FILE, most_of(given))
    handed_in = rows(store, "SELECT id, login, time, task, text FROM handed_in ORDER BY id")
    return StudentData(
        given,
        listed,
        own,
        store,
        tuple(files_of(given, is_own)),
        tuple(tables_of(given.results)),
        tuple(line for line in read_collected(folder).values() if is_own(line.answer)),
        {f: to for f, to in read_placed(folder, labels, listed).items() if is_own(to.student)},
        tuple(line for line in marks if line.student and is_own(line.student)),
        tuple(
            HandedIn(*line) for line in (handed_in if store.is_file() else ()) if is_own(line[1])
        ),
    )


def files_of(given: Exercise, is_own: Callable[[str], bool]) -> Iterator[Path]:
    """The answers, older ones, what was printed of them, and the pages of feedback."""
    for folder, dots in (
        *((task.folder / ANSWERS, 1) for task in given.tasks),
        *((given.folder / OLDER / task.label, 2) for task in given.tasks),
        *((given.results / "tasks" / task.label, 1) for task in given.tasks),
        (given.results / FEEDBACK, 1),
    ):
        for path in sorted(folder.iterdir()) if folder.is_dir() else ():
            name = path.name.rsplit(".", dots)[0]
            if is_own(name) and (path.is_symlink() or path.is_file()):
                yield path


def tables_of(results: Path) -> Iterator[Path]:
    """Files of the whole class that are there."""
    found = [results / name for name in TABLES]
    feedback = results / FEEDBACK
    if feedback.is_dir():
        found += [path for path in feedback.iterdir() if path.suffix in (".csv", ".zip", ".json")]
    yield from (path for path in found if path.is_file())
