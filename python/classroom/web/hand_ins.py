"""What students handed in at the page, in an SQLite file of its own: the exact time, the login, the
task and the text, and which of them counts.

It is outside of what `--keep-days` takes, and bounded by what each may have there. A hand-in is on
the disk before its receipt is shown, so a server that is killed loses none. """
from __future__ import annotations

import hashlib
import sqlite3
import threading
from collections.abc import Iterator
from contextlib import contextmanager
from dataclasses import dataclass
from datetime import datetime, timezone
from pathlib import Path

from classroom.base.errors import Fault, shown
from classroom.web.questions import opened, rows

FILE = "handed-in.db"
# The last text of a login for a task counts, unless `chosen` names an earlier one of them, or none.
SCHEMA = """
CREATE TABLE IF NOT EXISTS handed_in (id INTEGER PRIMARY KEY, time TEXT NOT NULL, login TEXT NOT NULL, task TEXT NOT NULL,
    text TEXT NOT NULL, digest TEXT NOT NULL);
CREATE INDEX IF NOT EXISTS handed_in_by ON handed_in (login, task);
CREATE TABLE IF NOT EXISTS chosen (login TEXT NOT NULL, task TEXT NOT NULL, time TEXT NOT NULL, id INTEGER,
    PRIMARY KEY (login, task));
"""
# Of one login for one task the last ones are kept.
MOST = 20


@dataclass(frozen=True)
class Receipt:
    """What a student is shown of a hand-in."""

    time: datetime
    digest: str  # of the text's UTF-8, by SHA-256


@dataclass(frozen=True)
class HandIn:
    """A text that was handed in."""

    time: datetime
    login: str
    task: str
    text: str


@dataclass(frozen=True)
class Kept:
    """A text of a student, as the own page shows it."""

    number: int
    text: str
    receipt: Receipt
    counts: bool


class HandIns:
    """The file, written by many threads. What can't be written or read is a Fault."""

    def __init__(self, path: Path) -> None:
        self.path = path
        self._lock = threading.Lock()
        try:
            self._database = opened(path, "FULL")
            self._database.executescript(SCHEMA)
        except sqlite3.Error as fault:
            raise Fault(f"{shown(str(path))}: {fault}") from None

    def put(self, login: str, task: str, text: str) -> Receipt:
        """Writes a text, which counts from now on."""
        moment = now()
        receipt = Receipt(moment, hashlib.sha256(text.encode("utf-8", "replace")).hexdigest())
        with self._written() as database:
            database.execute(
                "INSERT INTO handed_in (time, login, task, text, digest) VALUES (?, ?, ?, ?, ?)",
                (moment.isoformat(), login, task, text, receipt.digest),
            )
            database.execute(
                "DELETE FROM handed_in WHERE login = ? AND task = ? AND id NOT IN (SELECT id FROM"
                f" handed_in WHERE login = ? AND task = ? ORDER BY id DESC LIMIT {MOST})",
                (login, task) * 2,
            )
            database.execute("DELETE FROM chosen WHERE login = ? AND task = ?", (login, task))
        return receipt

    def choose(self, login: str, task: str, number: int | None) -> bool:
        """Makes an earlier text of this student count again, or none at all; whether there is such
        a text."""
        with self._written() as database:
            found = database.execute(
                "SELECT 1 FROM handed_in WHERE login = ? AND task = ? AND (id = ? OR ? IS NULL)",
                (login, task, number, number),
            ).fetchone()
            if found:
                database.execute(
                    "INSERT OR REPLACE INTO chosen VALUES (?, ?, ?, ?)",
                    (login, task, now().isoformat(), number),
                )
        return found is not None

    def kept(self, login: str) -> dict[str, list[Kept]]:
        """The texts of a login for each task, the newest first."""
        with self._lock:
            try:
                found = self._database.execute(
                    "SELECT task, id, text, time, digest FROM handed_in WHERE login = ?"
                    " ORDER BY id DESC",
                    (login,),
                ).fetchall()
                chosen = dict(
                    self._database.execute("SELECT task, id FROM chosen WHERE login = ?", (login,))
                )
            except sqlite3.Error as fault:
                raise Fault(f"{shown(str(self.path))}: {fault}") from None
        texts: dict[str, list[Kept]] = {}
        for task, number, text, time, digest in found:
            of_task = texts.setdefault(task, [])
            counts = chosen[task] == number if task in chosen else not of_task
            receipt = Receipt(datetime.fromisoformat(time), digest)
            of_task.append(Kept(number, text, receipt, counts))
        return texts

    @contextmanager
    def _written(self) -> Iterator[sqlite3.Connection]:
        """The file within one transaction."""
        with self._lock:
            try:
                self._database.execute("BEGIN IMMEDIATE")
                yield self._database
                self._database.execute("COMMIT")
            except sqlite3.Error as fault:
                if self._database.in_transaction:
                    self._database.execute("ROLLBACK")
                raise Fault(f"{shown(str(self.path))}: {fault}") from None

    def close(self) -> None:
        with self._lock:
            self._database.close()


def now() -> datetime:
    """To the second."""
    return datetime.now(timezone.utc).replace(microsecond=0)


def last_before(path: Path, closes: datetime | None) -> list[HandIn]:
    """The text that counts of each login for each task, of those in time: the last, or the one that
    the student chose in time."""
    found: dict[tuple[str, str], HandIn] = {}
    numbers: dict[int, HandIn] = {}
    for number, time, login, task, text in rows(
        path, "SELECT id, time, login, task, text FROM handed_in ORDER BY id"
    ):
        one = HandIn(datetime.fromisoformat(time), login, task, text)
        if closes is None or one.time <= closes:
            found[login, task] = numbers[number] = one
    for login, task, time, number in choices(path):
        if closes is None or datetime.fromisoformat(time) <= closes:
            found.pop((login, task), None)
            if number in numbers:
                found[login, task] = numbers[number]
    return list(found.values())


def choices(path: Path) -> list[tuple[str, str, str, int | None]]:
    """What students chose; nothing in a file of before there was a choice."""
    if not list(rows(path, "SELECT 1 FROM sqlite_master WHERE name = 'chosen'")):
        return []
    return [
        (str(login), str(task), str(time), number)
        for login, task, time, number in rows(path, "SELECT login, task, time, id FROM chosen")
    ]
