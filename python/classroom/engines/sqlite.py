"""SQLite as the engine: rows in a database in memory, from which the queries only read.

Of a part that comes after another only the rows that changed are put and taken.
"""
from __future__ import annotations

import math
import sqlite3
import time
from collections.abc import Iterator, Sequence
from contextlib import contextmanager

from classroom.engines import sqlite_words, tie_keys
from classroom.engines.only_reads import MOST_TEXT, OTHERWISE, READ, barred, bound, in_memory
from classroom.sql.schema import quoted
from classroom.verdict.compare import Answer
from classroom.verdict.verdict import Cause
from classroom.engines.engine import (
    ANSWER,
    MOST_LINES,
    QUERY_SECONDS,
    REFERENCE,
    Bars,
    Refused,
    Stopped,
    TooMuch,
)
from classroom.engines.stored_turned import turned, with_rowid
from classroom.engines.tables_read import named
from classroom.engines.sqlite_refusals import stopped_by
from classroom.exercise.typed_rows import Material
from classroom.exercise.part_masks import Mask, Parts, bits
from classroom.engines.tables_read import places, with_views
from classroom.sql.dialect import with_sets
from classroom.sql import ranks
from classroom.sql.clock import asked_in_sqlite
from classroom.sql.lookup import begins_as_query, unknown_name

# Steps of SQLite's machine between two looks at the time.
STEPS = 200
FAR = 1 << 40  # rowids of rows that are stored the other way round


class Stored:
    """A database with the tables, in whose order the rows are stored or the other way round."""

    def __init__(self, material: Material, parts: Parts, backwards: bool, seconds: float) -> None:
        self.material, self.parts, self.backwards, self.seconds = (
            material,
            parts,
            backwards,
            seconds,
        )
        self.db = in_memory()
        for statement in material.statements:
            self.db.execute(turned(statement) if backwards else with_rowid(statement))
        self.puts: list[str] = []
        self.takes: list[str] = []
        self.aliases: list[
            tuple[int | None, str]
        ] = []  # the column that is the rowid, and the rowid's name
        for held in material.pool.held:
            self.prepare(held.table.name, [column.name for column in held.table.columns])
        for view in material.views:
            self.db.execute(view.statement)
        self.part: Mask = 0
        self.is_strict, self.bar, self.until = False, "", math.inf
        self.read: set[str] = set()
        bound(self.db)
        self.db.set_authorizer(self.may)
        self.db.set_progress_handler(lambda: time.process_time() > self.until, STEPS)

    def prepare(self, table: str, columns: Sequence[str]) -> None:
        """The statements that put and take a row, which is known by its rowid."""
        of = quoted(table)
        info = self.db.execute(
            f"SELECT name, type, pk FROM pragma_table_info({quoted_text(table)})"
        ).fetchall()
        keys = [(name, kind) for name, kind, place in info if place]
        alias = None
        if (
            len(keys) == 1
            and keys[0][1].upper() == "INTEGER"
            and keys[0][0] in columns
            and self.is_alias(of, keys[0][0])
        ):
            alias = list(columns).index(keys[0][0])
        names = [quoted(name) for name in columns]
        rowid = next(
            name
            for name in ("rowid", "_rowid_", "oid")
            if name not in {one.lower() for one, _, _ in info}
        )
        if alias is None:
            names.append(rowid)
        self.puts.append(
            f"INSERT INTO {of} ({', '.join(names)}) VALUES ({', '.join('?' * len(names))})"
        )
        self.takes.append(f"DELETE FROM {of} WHERE {rowid} = ?")
        self.aliases.append((alias, rowid))

    def is_alias(self, of: str, name: str) -> bool:
        """Whether a column is the rowid: then NULL in it becomes a number."""
        return not self.db.execute(
            "SELECT 1 FROM pragma_index_list(?) WHERE origin = 'pk'", (of[1:-1].replace('""', '"'),)
        ).fetchall()

    def rowid(self, at: int) -> int:
        row = self.parts.rows[at]
        alias, _ = self.aliases[row.table]
        if alias is not None:
            value = self.material.pool.held[row.table].rows[row.number][alias]
            return value if isinstance(value, int) else 0
        return FAR - row.number if self.backwards else row.number + 1

    def put(self, at: int) -> None:
        row = self.parts.rows[at]
        cells = self.material.pool.held[row.table].rows[row.number]
        self.db.execute(
            self.puts[row.table],
            cells if self.aliases[row.table][0] is not None else (*cells, self.rowid(at)),
        )

    def load(self, part: Mask) -> None:
        """Makes these the rows of the database."""
        if part == self.part:
            return
        for at in bits(self.part & ~part):
            self.db.execute(self.takes[self.parts.rows[at].table], (self.rowid(at),))
        for at in bits(part & ~self.part):
            self.put(at)
        self.part = part

    def may(
        self, action: int, one: str | None, two: str | None, base: str | None, inside: str | None
    ) -> int:
        """The authorizer: a query reads tables, and calls what is not barred."""
        why = barred(action, one, two) if self.is_strict else ""
        if self.is_strict and action == READ and not why:
            self.read.add((one or "").lower())
        self.bar = self.bar if self.bar and why == OTHERWISE else why or self.bar
        return sqlite3.SQLITE_DENY if why else sqlite3.SQLITE_OK

    @contextmanager
    def strictly(self) -> Iterator[None]:
        self.is_strict, self.bar, self.until = True, "", time.process_time() + self.seconds
        try:
            yield
        finally:
            self.is_strict, self.until = False, math.inf

    def ask(self, which: int, text: str) -> Answer:
        self.is_strict, self.bar, self.until = True, "", time.process_time() + self.seconds
        try:
            cursor = self.db.execute(text)
            if cursor.description is None:
                raise Refused(which, "it is no query", cause=Cause.BARRED)
            lines = cursor.fetchmany(MOST_LINES + 1)
            columns = len(cursor.description)
        except MemoryError:
            raise TooMuch(which, "memory") from None
        except (sqlite3.Error, sqlite3.Warning) as fault:
            return self.failed(which, str(fault))
        finally:
            self.is_strict, self.until = False, math.inf
        if len(lines) > MOST_LINES:
            cursor.close()
            raise TooMuch(which, "rows")
        return Answer(columns, lines)

    def failed(self, which: int, message: str) -> Answer:
        """The answer of a query that SQLite ended; where that is so on any rows, why."""
        if self.bar:
            raise Bars(which, self.bar)
        if "interrupted" in message:
            raise TooMuch(which, "time")
        if "too big" in message:
            raise TooMuch(which, "size of a value")
        if "more than one statement" in message or "one statement at a time" in message:
            raise Bars(which, "it has more than one statement")
        return Answer(0, (), message)

    def close(self) -> None:
        self.db.close()


class Sqlite:
    """The engine over a material, with the two databases that store the rows in opposite orders."""

    pace = 1.0

    @staticmethod
    def clock() -> float:
        """What others do on the machine doesn't count."""
        return time.process_time()

    def __init__(
        self,
        material: Material,
        parts: Parts,
        reference: str,
        answer: str,
        seconds: float = QUERY_SECONDS,
    ) -> None:
        self.material, self.parts = material, parts
        self.queries = reference, answer
        self.stored = [Stored(material, parts, backwards, seconds) for backwards in (False, True)]
        self.rewritten: set[int] = set()
        self.check_both()
        self.label = sqlite_words.label(sqlite3.sqlite_version, self.rewritten)
        tie_keys.add_functions(self.stored[0].db)
        self.ways = [[*tie_keys.untied_texts(text, parts.pool, "sqlite")] for text in self.queries]
        self.ranked = [ranks.ranked(text, "sqlite") for text in self.queries]

    def check_both(self) -> None:
        """Refuses a query over any rows; an answer that is wrong SQL is told so where the reference
        is refused for another reason, too."""
        try:
            self.check(REFERENCE)
        except Stopped as first:
            try:
                self.check(ANSWER)
            except Refused as second:
                is_wrong = second.cause in (Cause.SYNTAX, Cause.NAME)
                if is_wrong and second.message != first.message:
                    raise second from None
            except Stopped:
                pass
            raise first from None
        self.check(ANSWER)

    def check(self, which: int) -> None:
        """Refuses a query that SQLite reads neither as it is nor rewritten."""
        text = self.queries[which]
        try:
            self.look(which, text)
        except Stopped as stopped:
            columns = sqlite_words.declared(self.stored[0].db, self.material)
            other = sqlite_words.rewriting(text, stopped, columns)
            if other is None or not self.is_read(which, other):
                raise
        else:
            other = with_sets(text, is_read=True)
            if other is not None and not self.is_read(which, other):
                other = None
        if other is not None:
            self.rewritten.add(which)
            both = list(self.queries)
            both[which] = other
            self.queries = both[REFERENCE], both[ANSWER]

    def is_read(self, which: int, text: str) -> bool:
        """Whether SQLite reads a rewritten text, which is barred and limited as any other."""
        try:
            self.look(which, text)
        except Refused:
            return False
        return True

    def look(self, which: int, text: str) -> None:
        """Refuses a text that is wrong over any rows, or does something else than to read them."""
        if len(text.encode("utf-8", "replace")) > MOST_TEXT:
            raise TooMuch(which, "size of a value")
        if "\0" in text:
            raise Refused(which, "a byte that is no character of a text", text.index("\0"))
        if not begins_as_query(text):
            raise Bars(which, "it is no query, which begins with SELECT, WITH, VALUES or TABLE")
        for one in with_views([text], self.material):
            found = asked_in_sqlite(one)
            if found:
                raise Bars(which, f"it asks the clock: {found}")
        first = self.stored[0]
        answer = first.ask(which, text)
        if answer.failure:
            stopped = stopped_by(which, answer.failure, text)
            # What SQLite reads, and then fails at, is an answer of those rows.
            if isinstance(stopped, TooMuch) or first.ask(which, f"EXPLAIN {text}").failure:
                raise stopped
        names = {
            name
            for held in self.material.pool.held
            for name in (held.table.name, *(column.name for column in held.table.columns))
        }
        names |= {
            str(name)
            for held in self.material.pool.held
            for name, in first.db.execute(
                f"SELECT name FROM pragma_table_xinfo({quoted_text(held.table.name)})"
            )
        }
        names |= {
            str(name)
            for view in self.material.views
            for name, in first.db.execute(
                f"SELECT name FROM pragma_table_info({quoted_text(view.name)})"
            )
        } | {view.name for view in self.material.views}
        unknown = unknown_name(text, names)
        if unknown:
            raise Refused(which, f"no such column: {unknown[0]}", unknown[1], Cause.NAME)

    @property
    def tables(self) -> frozenset[int]:
        """Those that SQLite reads columns of, and, since it doesn't tell all of USING, those that
        are named."""
        numbers = places(self.material)
        return frozenset(numbers[name] for name in self.stored[0].read if name in numbers).union(
            *(named(text, numbers, "sqlite") for text in with_views(self.queries, self.material))
        )

    def answers(self, part: Mask, backwards: bool = False) -> tuple[Answer, Answer]:
        stored = self.stored[backwards]
        stored.load(part)
        return stored.ask(REFERENCE, self.queries[REFERENCE]), stored.ask(
            ANSWER, self.queries[ANSWER]
        )

    def columns(self, which: int) -> tuple[str, ...]:
        with self.stored[0].strictly():
            try:
                found = self.stored[0].db.execute(self.queries[which]).description
            except sqlite3.Error:
                return ()  # it fails on these rows
        return tuple(str(name) for name, *_ in found)

    def ties(self, which: int) -> int:
        return len(self.ways[which])

    def tied_answer(self, which: int, way: int, part: Mask) -> Answer | None:
        return self.beside(which, self.ways[which][way], part)

    def beside(self, which: int, text: str, part: Mask) -> Answer | None:
        """The answer to a text that stands beside a query; None where it fails."""
        self.stored[0].load(part)
        try:
            found = self.stored[0].ask(which, text)
        except Stopped:
            return None
        return None if found.failure else found

    def ranked_answer(self, which: int, part: Mask) -> Answer | None:
        text = self.ranked[which]
        return self.beside(which, text, part) if text else None

    def joined(
        self, tables: Sequence[tuple[int, str]], condition: str
    ) -> Iterator[tuple[int, ...]]:
        stored = self.stored[0]
        stored.load((1 << len(self.parts.rows)) - 1)
        known = {(row.table, stored.rowid(at)): at for at, row in enumerate(self.parts.rows)}
        names = [quoted(held.table.name) for held in self.material.pool.held]
        ids = ", ".join(f"{quoted(alias)}.{stored.aliases[table][1]}" for table, alias in tables)
        begin = ", ".join(f"{names[table]} AS {quoted(alias)}" for table, alias in tables)
        with stored.strictly():
            try:
                cursor = stored.db.execute(
                    f"SELECT {ids} FROM {begin}" + (f" WHERE {condition}" if condition else "")
                )
            except sqlite3.Error as fault:
                raise ValueError(str(fault)) from None
        for line in cursor:
            yield tuple(known[table, rowid] for (table, _), rowid in zip(tables, line))

    def close(self) -> None:
        for stored in self.stored:
            stored.close()


def quoted_text(text: str) -> str:
    return "'" + text.replace("'", "''") + "'"
