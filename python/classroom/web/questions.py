"""What was asked, in an SQLite file: each question with its hour, task, text and verdict, and
nothing of who asked.

    text      each text once for all that its verdict rests on, with what `ratest` printed of it
    question  a row for each time that one was asked, with the hour alone
    asked     both, as a view: time, task, text, verdict

Questions older than so many days go, and texts that no question has any more.
"""
from __future__ import annotations

import json
import logging
import os
import sqlite3
import threading
import time
from collections.abc import Iterator, Sequence
from dataclasses import dataclass
from pathlib import Path
from typing import Any

from classroom.exercise.exercise import digest
from classroom.base.errors import Fault, shown
from classroom.process.limits import Ran
from classroom.verdict.verdict import Verdict, from_json, to_json

VERSION = 3
SCHEMA = """
CREATE TABLE IF NOT EXISTS text (id INTEGER PRIMARY KEY, key TEXT NOT NULL UNIQUE, task TEXT NOT NULL,
    text TEXT NOT NULL, verdict TEXT NOT NULL, status INTEGER NOT NULL, passed TEXT NOT NULL,
    stdout BLOB NOT NULL, stderr BLOB NOT NULL, exercise TEXT NOT NULL DEFAULT '', reference TEXT NOT NULL DEFAULT '',
    trial TEXT NOT NULL DEFAULT '');
CREATE TABLE IF NOT EXISTS question (id INTEGER PRIMARY KEY, time TEXT NOT NULL,
    text INTEGER NOT NULL REFERENCES text);
CREATE INDEX IF NOT EXISTS question_of_text ON question (text);
CREATE VIEW IF NOT EXISTS asked (time, task, text, verdict) AS
    SELECT question.time, text.task, text.text, text.verdict
    FROM question JOIN text ON text.id = question.text ORDER BY question.id;
"""
# What a file of each earlier version gets: the first had whole seconds and not what a verdict is
# of, the second nothing of what a database said.
OLDER = {
    1: """
ALTER TABLE text ADD COLUMN exercise TEXT NOT NULL DEFAULT '';
ALTER TABLE text ADD COLUMN reference TEXT NOT NULL DEFAULT '';
UPDATE question SET time = substr(time, 1, 13) || ':00Z';
""",
    2: """
ALTER TABLE text ADD COLUMN trial TEXT NOT NULL DEFAULT '';
""",
}
LOG = "asked.db"
PAGE = 4096
DAY = 86_400
log = logging.getLogger(__name__)


def key_of(foundation: str, task: str, reference: str, text: str) -> str:
    """The key of a verdict: of all that it rests on beside these (see `foundation_of`), the task's
    name, the digest of its reference and the text."""
    return digest(
        foundation.encode(),
        task.encode("utf-8", "replace"),
        reference.encode(),
        text.encode("utf-8", "replace"),
    )


def foundation_of(exercise: str, program: str, engine: str, words: Sequence[str]) -> str:
    """What the verdicts of one server rest on: digests of the schema with the rows and of the
    program, the database beside it with its version, and the limits and options of a question."""
    return digest(
        *(word.encode("utf-8", "surrogateescape") for word in (exercise, program, engine, *words))
    )


@dataclass(frozen=True)
class Text:
    """A text that was asked, and how often."""

    exercise: str  # digests of what it was asked of
    reference: str
    task: str
    text: str
    verdict: str
    ran: Ran
    count: int
    trial: Verdict | None = None


@dataclass(frozen=True)
class Question:
    """One that is to be kept."""

    key: str
    exercise: str
    reference: str
    task: str
    text: str
    verdict: str
    ran: Ran
    trial: Verdict | None = None


class Log:
    """The file, written by many threads; it never grows past a bound: where it is full the oldest
    questions go."""

    def __init__(self, path: Path, megabytes: int, days: int | None = None) -> None:
        """`days` that questions are kept; None where they stay."""
        self.path = path
        self.days = days
        self._lock = threading.Lock()
        self._is_closed = False
        self._hour = ""
        self._failures: list[sqlite3.Error] = []  # since a question was kept
        try:
            self._database = opened(path, "NORMAL")
            self._database.execute(
                f"PRAGMA max_page_count = {max(megabytes * 1_000_000 // PAGE, 16)}"
            )
            self._begin()
        except sqlite3.Error as fault:
            raise Fault(f"{shown(str(path))}: {fault}") from None

    def _begin(self) -> None:
        (version,) = self._database.execute("PRAGMA user_version").fetchone()
        names = {name for (name,) in self._database.execute("SELECT name FROM sqlite_master")}
        if version < VERSION and "text" in names:
            steps = "".join(text for older, text in OLDER.items() if older >= max(version, 1))
            self._database.executescript(f"BEGIN IMMEDIATE; {steps} COMMIT;")
        self._database.executescript(SCHEMA)
        self._database.execute(f"PRAGMA user_version = {VERSION}")

    def keep(self, question: Question) -> None:
        """Keeps one question; where the file fails, that is told once. Of one text the newest
        verdict counts."""
        with self._lock:
            if self._is_closed:
                return
            for is_last in (False, True):
                try:
                    self._write(question)
                    self._is_kept()
                    return
                except sqlite3.Error as fault:
                    self._undo()
                    if is_last or not is_full(fault) or not self._make_room():
                        self._fails(fault)
                        return

    def _write(self, question: Question) -> None:
        hour = time.strftime("%Y-%m-%dT%H:00Z", time.gmtime())
        ran = question.ran
        self._database.execute("BEGIN IMMEDIATE")
        if hour != self._hour:
            self._drop_old()
            self._hour = hour
        self._database.execute(
            "INSERT INTO text (key, exercise, reference, task, text, verdict, status, passed,"
            " stdout, stderr, trial) VALUES (?, ?, ?, ?, ?, ?, ?, ?, ?, ?, ?) ON CONFLICT (key) DO"
            " UPDATE SET verdict = excluded.verdict, status = excluded.status, passed ="
            " excluded.passed, stdout = excluded.stdout, stderr = excluded.stderr, trial ="
            " excluded.trial",
            (
                question.key,
                question.exercise,
                question.reference,
                question.task,
                question.text,
                question.verdict,
                ran.status,
                ran.passed,
                ran.stdout,
                ran.stderr,
                json.dumps(to_json(question.trial)) if question.trial else "",
            ),
        )
        self._database.execute(
            "INSERT INTO question (time, text) SELECT ?, id FROM text WHERE key = ?",
            (hour, question.key),
        )
        self._database.execute("COMMIT")

    def _drop_old(self) -> None:
        if self.days is not None:
            before = time.strftime("%Y-%m-%dT%H:00Z", time.gmtime(time.time() - self.days * DAY))
            drop_before(self._database, before)

    def _make_room(self) -> bool:
        """Takes the oldest questions out, a tenth of all; whether that could be done."""
        try:
            self._database.execute("BEGIN IMMEDIATE")
            self._database.execute(
                "DELETE FROM question WHERE id IN (SELECT id FROM question ORDER BY id LIMIT"
                " (SELECT count(*) / 10 + 1 FROM question))"
            )
            drop_unasked(self._database)
            self._database.execute("COMMIT")
        except sqlite3.Error:
            self._undo()
            return False
        return True

    def _undo(self) -> None:
        if self._database.in_transaction:
            self._database.execute("ROLLBACK")

    def _fails(self, fault: sqlite3.Error) -> None:
        if not self._failures:
            log.error("%s: a question is not kept: %s", shown(str(self.path)), fault)
        self._failures.append(fault)

    def _is_kept(self) -> None:
        if self._failures:
            log.warning("%s: questions are kept again", shown(str(self.path)))
            self._failures.clear()

    def why_not_kept(self) -> str:
        """What keeps questions from being kept at this moment; empty where nothing does. One lock
        of a moment is nothing wrong."""
        with self._lock:
            if not self._failures or self._is_closed:
                return ""
            try:
                self._database.execute("BEGIN IMMEDIATE")
                self._database.execute(
                    "INSERT INTO text (key, task, text, verdict, status, passed, stdout, stderr)"
                    " VALUES ('', '', '', '', 0, '', zeroblob(?), '')",
                    (8 * PAGE,),
                )
                self._undo()
            except sqlite3.Error as fault:
                self._undo()
                return str(fault)
            self._is_kept()
            return ""

    def close(self) -> None:
        with self._lock:
            self._is_closed = True
            self._database.close()


def is_full(fault: sqlite3.Error) -> bool:
    """Whether the file, or its disk, has no room."""
    return getattr(fault, "sqlite_errorcode", 0) == sqlite3.SQLITE_FULL


def opened(path: Path, synchronous: str) -> sqlite3.Connection:
    """A file that is nobody else's to read, for many threads, of which one at a time uses it."""
    os.close(os.open(path, os.O_CREAT | os.O_RDWR | os.O_CLOEXEC, 0o600))
    database = sqlite3.connect(path, check_same_thread=False, isolation_level=None, timeout=5)
    for word in ("journal_mode = WAL", f"synchronous = {synchronous}", "secure_delete = ON"):
        database.execute(f"PRAGMA {word}")
    return database


def drop_before(database: sqlite3.Connection, hour: str) -> int:
    """Removes the questions of the hours before this one, and texts that no question has any more;
    gives the number of questions."""
    gone = database.execute("DELETE FROM question WHERE time < ?", (hour,)).rowcount
    if gone:
        drop_unasked(database)
    return gone


def drop_unasked(database: sqlite3.Connection) -> None:
    """Removes the texts that no question has any more."""
    database.execute("DELETE FROM text WHERE id NOT IN (SELECT text FROM question)")


def texts(path: Path) -> Iterator[Text]:
    """All texts that were asked, the most frequent first."""
    for row in rows(
        path,
        (
            "SELECT exercise, reference, task, text.text, verdict, status, passed, stdout, stderr,"
            " count(*), trial FROM text JOIN question ON question.text = text.id GROUP BY text.id"
            " ORDER BY count(*) DESC, text.id"
        ),
    ):
        exercise, reference, task, text, verdict, status, passed, out, err, count, trial = row
        yield Text(
            exercise,
            reference,
            task,
            text,
            verdict,
            Ran(status, out, err, 0.0, passed),
            count,
            from_json(json.loads(trial)) if trial else None,
        )


def by_hour(path: Path, hours: int) -> list[tuple[str, int]]:
    """The questions of each of the last hours in which there were some, the newest first."""
    return [
        (str(hour), int(count))
        for hour, count in rows(
            path,
            f"SELECT time, count(*) FROM question GROUP BY time ORDER BY time DESC LIMIT {hours}",
        )
    ]


def rows(path: Path, query: str) -> Iterator[tuple[Any, ...]]:
    """The rows of a query over the file, which is not written."""
    if not path.is_file():
        raise Fault(f"there is no file {shown(str(path))}: classroom serve makes it")
    try:
        database = sqlite3.connect(f"{path.absolute().as_uri()}?mode=ro", uri=True)
        try:
            yield from database.execute(query)
        finally:
            database.close()
    except sqlite3.Error as fault:
        raise Fault(f"{shown(str(path))}: {fault}") from None
