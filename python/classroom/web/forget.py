"""What is kept of questions and hand-ins, in numbers, and its removal for good."""
from __future__ import annotations

import sqlite3
from collections.abc import Iterator
from dataclasses import dataclass
from pathlib import Path

from classroom.views.draw import counted
from classroom.base.errors import Fault, shown
from classroom.web.hand_ins import choices
from classroom.web.questions import drop_before, rows

# Behind every time that is written.
EVER = "9999"


@dataclass(frozen=True)
class Files:
    """The files; that of hand-ins may not be there."""

    log: Path
    hand_ins: Path


@dataclass(frozen=True)
class Amounts:
    """How much is kept, from when to when."""

    questions: int
    texts: int
    first: str
    last: str
    hand_ins: int
    logins: int

    def lines(self) -> Iterator[str]:
        when = f", from {self.first} to {self.last}" if self.questions else ""
        yield f"{counted(self.questions, 'question')} of {counted(self.texts, 'text')}{when}"
        yield f"{counted(self.hand_ins, 'text')} handed in by {counted(self.logins, 'login')}"


def amounts(files: Files, before: str | None) -> Amounts:
    """What is kept, of the days before one where that is said."""
    end = before or EVER
    ((questions, texts, first, last),) = rows(
        files.log,
        (
            "SELECT count(*), count(DISTINCT text), coalesce(min(time), ''), coalesce(max(time),"
            f" '') FROM question WHERE time < '{end}'"
        ),
    )
    hand_ins = logins = 0
    if files.hand_ins.is_file():
        ((hand_ins, logins),) = rows(
            files.hand_ins,
            f"SELECT count(*), count(DISTINCT login) FROM handed_in WHERE time < '{end}'",
        )
    return Amounts(questions, texts, first, last, hand_ins, logins)


def forget(files: Files, before: str | None, with_hand_ins: bool) -> None:
    """Removes it so that no byte of it stays in the files."""
    end = before or EVER
    with _opened(files.log) as database:
        drop_before(database, end)
    emptied(files.log)
    if with_hand_ins and files.hand_ins.is_file():
        with _opened(files.hand_ins) as database:
            database.execute("DELETE FROM handed_in WHERE time < ?", (end,))
            if choices(files.hand_ins):
                database.execute(
                    "DELETE FROM chosen WHERE time < ? OR id NOT IN (SELECT id FROM handed_in)",
                    (end,),
                )
        emptied(files.hand_ins)


def _opened(path: Path) -> sqlite3.Connection:
    try:
        database = sqlite3.connect(path, timeout=20)
        database.execute("PRAGMA secure_delete = ON")
        return database
    except sqlite3.Error as fault:
        raise Fault(f"{shown(str(path))}: {fault}") from None


def emptied(path: Path) -> None:
    """Takes what was removed out of the file and of what is written ahead of it."""
    database = _opened(path)
    try:
        database.execute("VACUUM")
        database.execute("PRAGMA wal_checkpoint(TRUNCATE)")
    except sqlite3.Error as fault:
        raise Fault(f"{shown(str(path))}: {fault}") from None
    finally:
        database.close()
