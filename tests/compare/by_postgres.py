"""PostgreSQL has to accept the rows that are printed, with all constraints on, and to answer both
queries on them with just the rows that are printed."""
from __future__ import annotations

import glob
import os
import pwd
import shutil
import subprocess
import tempfile
from contextlib import contextmanager
from dataclasses import dataclass
from pathlib import Path
from random import Random
from typing import Any, Iterator, Optional

from .draw import Limits
from .model import Case, Row, add_foreign_keys, kept_lines, schema, witness_text
from .program import Answer, Passed, folder_of, query_text, ratest
from .query import Writer, quoted

try:
    import psycopg
except ImportError:
    psycopg = None  # type: ignore[assignment]

Place = tuple[str, int]
# So many parts of the rows are tried where `ratest` says that the queries agree on all of them.
TRIED = 6
# Of each round of the search, so that every case ends soon.
CONFLICTS = 300


def lack() -> Optional[str]:
    """What to tell where the server or its client is not there."""
    if psycopg is None or programs() is None:
        return "PostgreSQL or psycopg is missing: apt-get install postgresql python3-psycopg"
    return None


def programs() -> Optional[Path]:
    """The folder of the server's programs."""
    found = [shutil.which("initdb") or ""] + sorted(glob.glob("/usr/lib/postgresql/*/bin/initdb"))
    path = next((path for path in found if os.access(path, os.X_OK)), None)
    return Path(path).resolve().parent if path else None


@contextmanager
def server() -> Iterator[str]:
    """A server in a folder of its own, reached by its socket there; yields what psycopg connects
    to."""
    where = programs()
    if where is None:
        raise SystemExit(lack())
    place = tempfile.mkdtemp(prefix="ratest-postgres-")
    other: dict[str, Any] = {}
    if os.geteuid() == 0:
        # The server refuses to run as root.
        user = pwd.getpwnam("postgres")
        os.chown(place, user.pw_uid, user.pw_gid)
        other = {"user": user.pw_uid, "group": user.pw_gid, "extra_groups": []}
    quiet: dict[str, Any] = {"check": True, "stdout": subprocess.DEVNULL, "cwd": place, **other}
    try:
        subprocess.run(
            [
                where / "initdb",
                "-D",
                f"{place}/data",
                "-U",
                "postgres",
                "-A",
                "trust",
                "-E",
                "UTF8",
                "--locale=C",
                "--no-sync",
            ],
            **quiet,
        )
        options = (
            f"-k {place} -c listen_addresses= -c fsync=off -c synchronous_commit=off -c"
            " full_page_writes=off"
        )
        subprocess.run(
            [
                where / "pg_ctl",
                "-D",
                f"{place}/data",
                "-w",
                "-l",
                f"{place}/log",
                "-o",
                options,
                "start",
            ],
            **quiet,
        )
        try:
            yield f"host={place} user=postgres dbname=postgres"
        finally:
            subprocess.run(
                [where / "pg_ctl", "-D", f"{place}/data", "-m", "immediate", "stop"], **quiet
            )
    finally:
        shutil.rmtree(place, ignore_errors=True)


class Database:
    """A schema of its own in the server, with the tables of a case."""

    def __init__(self, address: str, case: Case) -> None:
        self.case = case
        self.connection = psycopg.connect(address, autocommit=True)
        # Two at once may have the same case.
        self.name = f"case_{os.getpid()}"
        self.run(
            f"DROP SCHEMA IF EXISTS {self.name} CASCADE; CREATE SCHEMA {self.name}; SET search_path"
            f" = {self.name}"
        )
        self.run(schema(case, "postgres") + add_foreign_keys(case))
        writer = Writer("postgres")
        self.first, self.second = writer.query(case.first), writer.query(case.second)

    def run(self, text: str) -> None:
        self.connection.execute(text.encode())

    def put(self, places: list[Place]) -> bool:
        """Makes these the rows of the database; whether they meet the schema, else it stays
        empty."""
        try:
            with self.connection.transaction():
                for name, rows in by_table(places).items():
                    row = "(" + ", ".join(["%s"] * len(self.case.rows[name][0])) + ")"
                    self.connection.execute(
                        f"INSERT INTO {quoted(name)} VALUES {', '.join([row] * len(rows))}".encode(),
                        [value for at in rows for value in self.case.rows[name][at]],
                    )
        except psycopg.errors.IntegrityError:
            return False
        return True

    def clear(self) -> None:
        tables = ", ".join(quoted(table.name) for table in self.case.tables)
        self.run(f"TRUNCATE {tables}")

    def answer(self, query: str) -> set[Row]:
        return set(self.connection.execute(query.encode()).fetchall())

    def close(self) -> None:
        self.run(f"DROP SCHEMA {self.name} CASCADE")
        self.connection.close()


def by_table(places: list[Place]) -> dict[str, list[int]]:
    found: dict[str, list[int]] = {}
    for name, at in places:
        found.setdefault(name, []).append(at)
    return found


def kept(case: Case, text: str) -> Optional[tuple[list[Place], str]]:
    """The places of the rows that a printed text begins with, and the rest of it. A cell may hold a
    line end, so each line is looked for as it has to be."""
    places = []
    for place in case.places():
        line = kept_lines(case, [place])
        if text.startswith(line):
            places.append(place)
            text = text[len(line) :]
    return places, text


@dataclass(frozen=True)
class ByPostgres:
    address: str
    name: str = "compare_postgres"
    limits: Limits = Limits(large=4)

    def difference(self, case: Case) -> Optional[str]:
        with folder_of(case) as folder:
            answer = ratest(folder, ["--conflicts", str(CONFLICTS), "--work", "32000000"])
        if answer.status == 5 or answer.err.endswith(b": arithmetic past 128 bits\n"):
            raise Passed("above a limit")
        if answer.status not in (0, 1, 4) or answer.err:
            return f"status {answer.status}: {answer.err!r}"
        database = Database(self.address, case)
        try:
            told = self.told(case, database, answer)
        finally:
            database.close()
        return told and f"{told}\n{answer.out.decode()}"

    def told(self, case: Case, database: Database, answer: Answer) -> Optional[str]:
        if answer.status == 0:
            return self.agrees(case, database)
        head, _, text = answer.out.decode().partition("\n")
        if answer.status == 4:
            head, _, text = text.partition("\n")
            if not head:
                raise Passed("undecided")
        places, rest = kept(case, text) or ([], "")
        if head != f"{'witness' if answer.status == 1 else 'best so far'}: {len(places)}":
            return "the rows that are printed are no rows of the case in their order"
        if not database.put(places):
            return "PostgreSQL refuses the rows"
        first, second = database.answer(database.first), database.answer(database.second)
        if first == second:
            return "the answers are the same"
        if answer.status == 1 and answer.out.decode() != witness_text(case, places, first, second):
            return f"the answers are {sorted(first, key=repr)} and {sorted(second, key=repr)}"
        if answer.status == 4 and rest:
            return "more is printed than the best rows"
        return None

    def agrees(self, case: Case, database: Database) -> Optional[str]:
        random = Random(query_text(case.first))
        for at in range(TRIED):
            places = [
                place
                for place in case.places()
                if at == 0 or random.random() < random.choice((0.2, 0.5, 0.9))
            ]
            if database.put(places):
                if database.answer(database.first) != database.answer(database.second):
                    return f"the answers differ on {places}"
                database.clear()
        return None
