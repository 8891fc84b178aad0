"""The truth of SQLite: every part of the rows is put into a database with the schema's constraints
on, and both queries are asked there."""
from __future__ import annotations

import sqlite3
from contextlib import closing
from dataclasses import dataclass
from itertools import combinations
from typing import Iterator, Optional

from .draw import Limits
from .model import Case, Row, schema, witness_text
from .program import Answer, Passed, folder_of, ratest
from .query import Writer, quoted

Place = tuple[str, int]


class Database:
    """The rows of a case, of which a part is in the database, and two queries in SQLite's words."""

    def __init__(self, case: Case, first: str, second: str) -> None:
        self.case, self.first, self.second = case, first, second
        self.connection = sqlite3.connect(":memory:", isolation_level=None)
        self.connection.execute("PRAGMA foreign_keys = ON")
        self.connection.executescript(schema(case, "sqlite"))
        self.insert = {
            table.name: (
                f"INSERT INTO {quoted(table.name)} VALUES ("
                + ", ".join("?" * len(table.columns))
                + ")"
            )
            for table in case.tables
        }

    def put(self, places: tuple[Place, ...]) -> bool:
        """Makes these the rows of the database; whether they meet the schema, else it stays
        empty."""
        run = self.connection.execute
        run("BEGIN")
        try:
            for name, at in places:
                run(self.insert[name], self.case.rows[name][at])
            run("COMMIT")
        except sqlite3.IntegrityError:
            run("ROLLBACK")
            return False
        return True

    def clear(self, places: tuple[Place, ...]) -> None:
        """Takes these rows out again, which are all that are there."""
        self.connection.execute("BEGIN")
        for name in {name for name, _ in places}:
            self.connection.execute(f"DELETE FROM {quoted(name)}")
        self.connection.execute("COMMIT")

    def close(self) -> None:
        self.connection.close()

    def do_differ(self) -> bool:
        (found,) = self.connection.execute(
            f"SELECT EXISTS (SELECT * FROM ({self.first}) EXCEPT SELECT * FROM ({self.second})) "
            f"OR EXISTS (SELECT * FROM ({self.second}) EXCEPT SELECT * FROM ({self.first}))"
        ).fetchone()
        return bool(found)

    def answer(self, query: str) -> set[Row]:
        return set(self.connection.execute(query).fetchall())

    def choices(self) -> Iterator[tuple[Place, ...]]:
        """From the smallest, in the order of the rows; without rows that no choice may have."""
        places = []
        # Foreign keys are left to the whole choice.
        self.connection.execute("PRAGMA foreign_keys = OFF")
        for place in self.case.places():
            if self.put((place,)):
                places.append(place)
                self.clear((place,))
        self.connection.execute("PRAGMA foreign_keys = ON")
        for size in range(len(places) + 1):
            yield from combinations(places, size)


def opened(case: Case) -> Database:
    writer = Writer("sqlite")
    return Database(case, writer.query(case.first), writer.query(case.second))


def expected(database: Database) -> str:
    """What `ratest` has to print."""
    for choice in database.choices():
        if database.put(choice):
            if database.do_differ():
                first, second = database.answer(database.first), database.answer(database.second)
                return witness_text(database.case, list(choice), first, second)
            database.clear(choice)
    return "agree\n"


def told(wanted: str, answer: Answer) -> Optional[str]:
    if answer.status == 5 and answer.err.startswith(b"ratest: limit: work "):
        raise Passed("above the work limit")
    if answer.status == 3 and answer.err.endswith(b": arithmetic past 128 bits\n"):
        raise Passed("arithmetic past 128 bits")
    status = 0 if wanted == "agree\n" else 1
    if (answer.status, answer.out, answer.err) == (status, wanted.encode(), b""):
        return None
    return (
        f"wanted status {status} and\n{wanted}\ngot status {answer.status} and\n"
        f"{answer.out.decode(errors='replace')}{answer.err.decode(errors='replace')}"
    )


@dataclass(frozen=True)
class BySqlite:
    name: str = "compare_sqlite"
    limits: Limits = Limits()

    def difference(self, case: Case) -> Optional[str]:
        with closing(opened(case)) as database:
            wanted = expected(database)
        with folder_of(case) as folder:
            return told(wanted, ratest(folder))
