"""PostgreSQL as the engine, in an empty database of its own, through psycopg.

A loader owns a schema of this process with the tables and puts the rows; an asker may only read
them, and calls no volatile routine. Each query has a session of its own, so that neither sees the
other's text, and is one statement by PREPARE. """
from __future__ import annotations

import re
import secrets
import time
from collections.abc import Iterator, Sequence
from typing import Any

from classroom.base.errors import Fault, library, shown
from classroom.sql import ranks
from classroom.sql.schema import quoted
from classroom.engines import left_schemas, tie_keys
from classroom.engines.asker_rights import LOADER_RIGHTS, RIGHTS
from classroom.engines.own_words import own_words
from classroom.engines.moment_types import moment
from classroom.engines.postgres_refusals import cause_of, is_of_rows, look, look_for_clock
from classroom.verdict.compare import Answer
from classroom.verdict.verdict import Cause
from classroom.engines.engine import (
    ANSWER,
    MOST_LINES,
    QUERY_SECONDS,
    REFERENCE,
    Bars,
    Refused,
    Stopped,
    TooMuch,
)
from classroom.engines.tables_read import in_one_schema, mentions, places, with_views
from classroom.exercise.typed_rows import Material
from classroom.exercise.part_masks import Mask, Parts, bits
from classroom.sql.tokens import Dialect

SCHEMA = "ratest_trial_"
# Seconds in which a server that lost all its sessions is there again.
RETURNS = 20.0
# Parts after which the tables are emptied of the rows that are deleted in them.
REFRESH = 500
# Types whose values are taken as texts.
TEXTS = "date time timetz timestamp timestamptz interval json jsonb uuid inet cidr xml money point".split()
PREPARE = "PREPARE query AS "
RANKED = "ranked"  # the name of the text that shows ranks


class Server:
    """A session of the loader, the tables of a material in a schema of its own, and sessions of the
    asker."""

    def __init__(self, material: Material, loader: str) -> None:
        self.psycopg = library("psycopg", "python3-psycopg")
        self.material = material
        self.names = [quoted(name) for name in material.names()]
        self.sessions: list[Any] = []
        self.askers: list[Any] = []
        self.loader = self.connected(loader, "engine")
        self.address = loader
        try:
            self.check_rights(self.loader, "engine", LOADER_RIGHTS, "one that may load")
        except BaseException:
            self.close()
            raise
        self.schema = f"{SCHEMA}{int(time.time())}_{secrets.token_hex(6)}"
        self.label = f"postgresql {str(self.one(self.loader, 'SHOW server_version')).split()[0]}"

    def connected(self, address: str, key: str, seconds: float = 0.0) -> Any:
        """A session; of the asker it has limits, and its user few rights."""
        options = (
            "-c timezone=UTC -c jit=off -c max_parallel_workers_per_gather=0 -c"
            " synchronous_commit=off"
        )
        if seconds:
            options += (
                " -c default_transaction_read_only=on -c work_mem=4MB -c"
                " plan_cache_mode=force_generic_plan"
            )
        try:
            session = self.psycopg.connect(
                address, autocommit=True, options=options, connect_timeout=10
            )
        except self.psycopg.Error as fault:
            raise Fault(f"{key}: {shown(str(fault).strip().splitlines()[0])}") from None
        self.sessions.append(session)
        for name in TEXTS:
            session.adapters.register_loader(name, self.psycopg.types.string.TextLoader)
        if seconds:
            self.bound(session, key, seconds)
        return session

    def bound(self, session: Any, key: str, seconds: float) -> None:
        """Looks at the rights of the asker, and sets the limits of its queries."""
        self.check_rights(session, key, RIGHTS, "one that only reads")
        # The catalogue was asked without, since on a busy machine it takes its time.
        session.execute(f"SET statement_timeout = {round(seconds * 1000)}; SET lock_timeout = '1s'")

    def check_rights(
        self, session: Any, key: str, rights: Sequence[tuple[str, str]], wanted: str
    ) -> None:
        """A Fault where the session's user may do what the queries ask for."""
        try:
            for query, told in rights:
                if self.one(session, query):
                    raise Fault(
                        f"{key}: its user {told}; docs/SERVER.md tells how to make {wanted}"
                    )
        except self.psycopg.Error as fault:
            raise Fault(f"{key}: {shown(str(fault).strip().splitlines()[0])}") from None

    def one(self, session: Any, query: str) -> Any:
        return session.execute(query).fetchone()[0]

    def make_tables(self) -> None:
        left_schemas.hold(self.loader, self.schema)
        left_schemas.drop(self.loader, SCHEMA, self.psycopg.Error)
        user = self.one(self.askers[0], "SELECT current_user")
        self.loader.execute(
            f"CREATE SCHEMA {self.schema}; GRANT USAGE ON SCHEMA {self.schema} TO {quoted(user)}; "
            f"SET search_path = {self.schema}"
        )
        if self.material.before:
            self.loader.execute(self.material.before)
        for statement in self.material.statements:
            self.loader.execute(
                re.sub(r"(?i)\A\s*CREATE TABLE\b", "CREATE UNLOGGED TABLE", statement)
            )
        sessions = ", ".join(str(session.info.backend_pid) for session in self.sessions)
        for name in self.names:
            # Sessions of other trials, which have the same user, see no row.
            self.loader.execute(
                f"ALTER TABLE {name} ENABLE ROW LEVEL SECURITY, FORCE ROW LEVEL SECURITY;"
                f"CREATE POLICY own ON {name} USING (pg_backend_pid() IN ({sessions}))"
            )
        for view in self.material.views:
            self.loader.execute(view.statement)
        self.loader.execute(f"GRANT SELECT ON ALL TABLES IN SCHEMA {self.schema} TO {quoted(user)}")
        for session in self.askers:
            session.execute(f"SET search_path = {self.schema}")
        columns = [
            ", ".join(quoted(column.name) for column in held.table.columns)
            for held in self.material.pool.held
        ]
        self.begins = [
            f"INSERT INTO {name} ({columns[at]}) OVERRIDING SYSTEM VALUE VALUES "
            for at, name in enumerate(self.names)
        ]

    def close(self) -> None:
        for session in self.sessions[1:]:
            session.close()
        if self.sessions:
            try:
                if hasattr(self, "schema"):
                    self.loader.execute(f"DROP SCHEMA IF EXISTS {self.schema} CASCADE")
            except self.psycopg.Error:
                pass  # the next trial removes it
            self.sessions[0].close()


class Postgres(Server):
    """The engine over a material, with a session of the loader and two of the asker."""

    pace = 0.25

    @staticmethod
    def clock() -> float:
        """The server's work counts."""
        return time.monotonic()

    def __init__(
        self,
        material: Material,
        parts: Parts,
        reference: str,
        answer: str,
        loader: str,
        asker: str,
        seconds: float = QUERY_SECONDS,
    ) -> None:
        super().__init__(material, loader)
        self.parts, self.seconds = parts, seconds
        self.queries = in_one_schema(reference, material), in_one_schema(answer, material)
        try:
            for which in (REFERENCE, ANSWER):
                look(which, *with_views([self.queries[which]], material))
            self.askers = [self.connected(asker, "engine_asker", seconds) for _ in self.queries]
            self.make_tables()
            self.values = [
                "("
                + ", ".join(map(literal, self.material.pool.held[row.table].rows[row.number]))
                + ")"
                for row in self.parts.rows
            ]
            self.masks = [
                sum(1 << at for at, row in enumerate(self.parts.rows) if row.table == table)
                for table in range(len(self.names))
            ]
            self.part, self.backwards, self.loads = 0, False, 0
            self.state = ""  # the SQLSTATE of the last query that failed
            for which in (REFERENCE, ANSWER):
                self.prepare(which)
            self.ways = [self.prepared_ways(which) for which in (REFERENCE, ANSWER)]
            self.has_ranks = [self.prepared_rank(which) for which in (REFERENCE, ANSWER)]
        except Stopped as stopped:
            stopped.engine = self.label
            self.close()
            raise
        except BaseException:
            self.close()
            raise

    def prepare(self, which: int) -> None:
        try:
            self.askers[which].execute(PREPARE + self.queries[which], prepare=True)
        except self.psycopg.Error as fault:
            at = fault.diag.statement_position
            place = int(at) - 1 - len(PREPARE) if at and at.isdigit() else None
            told = self.stopped(which, fault)
            cause = cause_of(fault.sqlstate or "")
            raise told or Refused(which, self.words(which, fault), place, cause) from None
        look_for_clock(which, moment(self.askers[which], self.queries[which]))
        # Over no rows; of the reference first, so that its text stands nowhere any more.
        answer = self.ask(which)
        if answer.failure and not is_of_rows(self.state):
            raise Refused(which, answer.failure, cause=Cause.UNSUPPORTED)

    def stopped(self, which: int, fault: Any) -> Stopped | None:
        """What ends the trial; None where it is the query's own fault."""
        state = fault.sqlstate or ""
        if state == "57014":
            return TooMuch(which, "time")
        if state == "42501" or state == "25006":
            return Bars(which, self.words(which, fault))
        if state == "42601" and "multiple commands" in str(fault):
            return Bars(which, "it has more than one statement")
        if state[:2] in ("53", "54"):
            return TooMuch(which, "memory" if state == "53200" else "size of a value")
        if state[:2] in ("08", "57", "58", "XX") or not state:
            # An error inside of the server is the query's own, unless the server is gone.
            if left_schemas.is_there(self.psycopg, self.address, RETURNS):
                return Bars(which, f"PostgreSQL failed at it: {self.words(which, fault)}")
            raise Fault(f"the engine: {shown(str(fault).strip().splitlines()[0])}") from None
        return None

    def words(self, which: int, fault: Any) -> str:
        """What PostgreSQL says, with nothing quoted but the query's own text and values of the
        rows."""
        cells = (
            str(cell)
            for at in bits(self.part)
            for cell in self.material.pool.held[self.parts.rows[at].table].rows[
                self.parts.rows[at].number
            ]
        )
        told = fault.diag.message_primary or str(fault).strip().partition("\n")[0]
        return shown(own_words(told, self.queries[which], cells))

    def ask(self, which: int, name: str = "query") -> Answer:
        try:
            cursor = self.askers[which].execute(f"EXECUTE {name}")
            lines = cursor.fetchall()
            columns = len(cursor.description or ())
        except self.psycopg.Error as fault:
            told = self.stopped(which, fault)
            if told:
                raise told from None
            self.state = str(fault.sqlstate)
            return Answer(0, (), self.words(which, fault))
        except MemoryError:
            raise TooMuch(which, "memory") from None
        if len(lines) > MOST_LINES:
            raise TooMuch(which, "rows")
        return Answer(columns, lines)

    def prepared_ways(self, which: int) -> int:
        """Prepares the query with its ties broken; the number of ways."""
        ways = 0
        try:
            for text in tie_keys.untied_texts(self.queries[which], self.parts.pool, "postgres"):
                self.askers[which].execute(f"PREPARE way_{ways} AS {text}")
                ways += 1
        except self.psycopg.Error:
            return 0
        return ways

    def prepared_rank(self, which: int) -> bool:
        """Prepares the query with the ranks of its rows; whether that could be done."""
        text = ranks.ranked(self.queries[which], "postgres")
        try:
            if text:
                self.askers[which].execute(f"PREPARE {RANKED} AS {text}")
        except self.psycopg.Error:
            return False
        return bool(text)

    def columns(self, which: int) -> tuple[str, ...]:
        told = self.askers[which].pgconn.describe_prepared(b"query")
        names = (told.fname(at) or b"" for at in range(told.nfields))
        return tuple(name.decode("utf-8", "replace") for name in names)

    def ties(self, which: int) -> int:
        return self.ways[which]

    def tied_answer(self, which: int, way: int, part: Mask) -> Answer | None:
        return self.beside(which, f"way_{way}", part)

    def ranked_answer(self, which: int, part: Mask) -> Answer | None:
        return self.beside(which, RANKED, part) if self.has_ranks[which] else None

    def beside(self, which: int, name: str, part: Mask) -> Answer | None:
        """The answer to what is prepared beside a query; None where it fails."""
        self.load(part)
        try:
            found = self.ask(which, name)
        except Stopped:
            return None
        return None if found.failure else found

    @property
    def tables(self) -> frozenset[int]:
        """The tables that the queries name; where they name a view, those of all views too."""
        numbers = places(self.material)
        return frozenset(
            table
            for text in with_views(self.queries, self.material)
            for table in mentions(text, numbers, Dialect.POSTGRESQL)
        )

    def load(self, part: Mask, backwards: bool = False) -> None:
        """Makes these the rows of the tables, as they are stored or the other way round."""
        if part == self.part and (backwards == self.backwards or part & (part - 1) == 0):
            return
        self.loads += 1
        texts = []
        is_new = self.loads % REFRESH == 0
        for table, mask in enumerate(self.masks):
            before, now = self.part & mask, part & mask
            if before == now and backwards == self.backwards and not is_new:
                continue
            if before and not is_new:
                texts.append(f"DELETE FROM {self.names[table]}")
            if now:
                rows = list(bits(now))
                texts.append(
                    self.begins[table]
                    + ", ".join(self.values[at] for at in (reversed(rows) if backwards else rows))
                )
        if is_new:
            texts.insert(0, f"TRUNCATE {', '.join(self.names)}")
        if texts:
            self.loader.execute(";".join(["BEGIN", *texts, "COMMIT"]))
        self.part, self.backwards = part, backwards

    def answers(self, part: Mask, backwards: bool = False) -> tuple[Answer, Answer]:
        self.load(part, backwards)
        return self.ask(REFERENCE), self.ask(ANSWER)

    def joined(
        self, tables: Sequence[tuple[int, str]], condition: str
    ) -> Iterator[tuple[int, ...]]:
        whole = (1 << len(self.parts.rows)) - 1
        self.loads = REFRESH - 1
        self.part = -1
        self.load(whole)
        known: dict[tuple[int, str], int] = {}
        for table in {table for table, _ in tables}:
            rows = list(bits(self.masks[table]))
            found = self.loader.execute(
                f"SELECT ctid::text FROM {self.names[table]} ORDER BY ctid"
            ).fetchall()
            known.update({(table, place): at for at, (place,) in zip(rows, found)})
        ids = ", ".join(f"{quoted(alias)}.ctid::text" for _, alias in tables)
        begin = ", ".join(f"{self.names[table]} AS {quoted(alias)}" for table, alias in tables)
        try:
            self.loader.execute(f"SET statement_timeout = {round(self.seconds * 1000)}")
            lines = self.loader.execute(
                f"SELECT {ids} FROM {begin}"
                + (f" WHERE {condition}" if condition else "")
                + f" LIMIT {MOST_LINES}"
            ).fetchall()
        except self.psycopg.Error as fault:
            raise ValueError(str(fault)) from None
        finally:
            self.loader.execute("SET statement_timeout = 0")
        if len(lines) == MOST_LINES:
            raise ValueError("too many tuples")
        for line in lines:
            yield tuple(known[table, place] for (table, _), place in zip(tables, line))


def literal(value: object) -> str:
    """A value as a constant of no type, which becomes one of its column's."""
    if value is None:
        return "NULL"
    text = f"\\x{value.hex()}" if isinstance(value, bytes) else str(value)
    return "'" + text.replace("'", "''") + "'"
