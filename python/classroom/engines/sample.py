"""Rows of a schema in a database, as all of them and as random lawful parts, over which queries are
tried.

What is found here is tried and never proved: it rejects a change, and says of none that it is
right. """
from __future__ import annotations

import random
import sqlite3
from collections import Counter
from collections.abc import Callable, Hashable, Iterator, Sequence
from typing import Any, Optional, Protocol

from classroom.engines import tie_keys
from classroom.engines.only_reads import MOST_TEXT, barred, bound, in_memory
from classroom.exercise.rows import Cell, Pool, Row, picked
from classroom.exercise.rules import rules_of
from classroom.sql.sqlite_schema import for_sqlite as schema_for_sqlite
from classroom.sql.dialect import for_sqlite
from classroom.sql.schema import quoted
from classroom.verdict.compare import DUPLICATES, ORDER, ROWS

PARTS = 40
SHARES = (0.3, 0.5, 0.7, 0.85)
# A query has this many times STEPS steps of SQLite's machine, and this many rows.
MOST_STEPS, MOST_ROWS = 10_000, 20_000
STEPS = 200
FEW = 20  # changes that are looked at further where many steps were needed

# How many columns, and the rows in the database's order; None where the query is refused or passes
# a limit.
Listed = Optional[tuple[int, Sequence[tuple[Any, ...]]]]
# How many columns, and what counts of the rows: a set, how often each comes, or the rows in the
# order of both ways in which they can be stored.
Answer = Optional[tuple[int, Any]]


class Holds(Protocol):
    """Some rows of a pool in a database, from which queries only read."""

    all_steps: int  # of all queries so far, some 250 in a millisecond

    def lawful(self) -> frozenset[Row]:
        """The rows that meet all rules of the schema together, the earlier of two that don't."""

    def written(self, query: str) -> str:
        """The query as this database reads it."""

    def untied(self, query: str) -> list[str]:
        """The query with its ties broken in several ways; none where no order chooses rows."""

    def load(self, part: frozenset[Row], backwards: bool = False) -> None:
        """Makes these the rows, stored in their order or the other way round."""

    def answer(self, text: str) -> Listed:
        """What the database answers."""


class Base:
    """The lawful rows of a pool, with random parts of them, the smallest first, of which one is
    loaded at a time."""

    def __init__(
        self,
        pool: Pool,
        parts: int = PARTS,
        seed: str = "1",
        kind: str = ROWS,
        database: Holds | None = None,
    ) -> None:
        """`kind`: as what rows are compared; the database is SQLite where none is given."""
        self.pool = pool
        self.kind = kind
        self.database = database or Database(pool)
        self.rows = self.database.lawful()
        self.parts = sorted(
            set(drawn(pool, self.rows, parts, seed)), key=lambda part: (len(part), sorted(part))
        )
        # How many changes were asked on a part, and how many it rejected.
        self.asked = [0] * len(self.parts)
        self.rejected = [0] * len(self.parts)

    def answers(self, query: str) -> list[Answer]:
        """Over each part; None too where ties leave open what the query returns, or the order that
        counts depends on how the rows are stored."""
        text = self.database.written(query)
        ways = self.database.untied(query)
        found = [
            None if ways and self.is_tied(at, ways) else self.answer(at, text)
            for at in range(len(self.parts))
        ]
        return [None if self.kind == ORDER and of and of[1][0] != of[1][1] else of for of in found]

    def has_ties(self, query: str) -> bool:
        """Whether ties leave open what a query returns over all rows."""
        return self.is_tied(len(self.parts) - 1, self.database.untied(query))

    def is_tied(self, at: int, ways: Sequence[str]) -> bool:
        """Whether the ways of breaking ties give two answers on a part."""
        self.database.load(self.parts[at])
        first: Hashable = None
        for text in ways:
            found = self.database.answer(text)
            if found is None:
                return False
            rows = counting(found[1], DUPLICATES)
            if first not in (None, rows):
                return True
            first = rows
        return False

    def answer(self, at: int, text: str) -> Answer:
        """Over one part, of a text as the database reads it."""
        self.database.load(self.parts[at])
        found = self.database.answer(text)
        if found is None or self.kind != ORDER:
            return found and (found[0], counting(found[1], self.kind))
        self.database.load(self.parts[at], backwards=True)
        again = self.database.answer(text)
        return again and (found[0], (tuple(found[1]), tuple(again[1])))

    def passes(self, query: str, wanted: Sequence[Answer]) -> bool:
        """Whether a query has these answers on the parts; a part of which none is known says
        nothing."""
        return bool(self.passing([query], wanted))

    def passing(
        self, queries: Sequence[str], wanted: Sequence[Answer], steps: int | None = None
    ) -> list[int]:
        """The places of the queries with these answers. Where so many steps were needed, of those
        that are left the first few alone are looked at further."""
        texts = [self.database.written(query) for query in queries]
        return self.left(len(texts), wanted, lambda at, part: self.answer(part, texts[at]), steps)

    def left(
        self,
        count: int,
        wanted: Sequence[Answer],
        answer: Callable[[int, int], Answer],
        steps: int | None = None,
    ) -> list[int]:
        """Those of so many that have these answers, by what gives the answer of one on a part. The
        parts that rejected most so far are asked first."""
        most = None if steps is None else self.database.all_steps + steps
        left = list(range(count))
        order = sorted(
            range(len(self.parts)),
            key=lambda part: -(self.rejected[part] + 1) / (self.asked[part] + 2),
        )
        for part in order:
            if wanted[part] is None or not left:
                continue
            if most is not None and self.database.all_steps > most:
                left = left[:FEW]
            right = [at for at in left if answer(at, part) == wanted[part]]
            self.asked[part] += len(left)
            self.rejected[part] += len(left) - len(right)
            left = right
        return left


def counting(rows: Sequence[tuple[Any, ...]], kind: str) -> Hashable:
    if kind == DUPLICATES:
        return frozenset(Counter(rows).items())
    return frozenset(rows)


class Database:
    """Some rows in SQLite, without the schema's rules, from which queries only read."""

    def __init__(self, pool: Pool) -> None:
        self.pool = pool
        self.part: frozenset[Row] = frozenset()
        self.backwards = False
        self.steps = self.all_steps = 0  # of the last query, and of all, in STEPS
        self.is_strict = False
        self.connection = in_memory()
        self.puts = []
        for held in pool.held:
            columns = ", ".join(
                f"{quoted(column.name)} {column.kind}" for column in held.table.columns
            )
            self.connection.execute(f"CREATE TABLE {quoted(held.table.name)} ({columns})")
            marks = ", ".join("?" * len(held.table.columns))
            self.puts.append(f"INSERT INTO {quoted(held.table.name)} VALUES ({marks})")
        bound(self.connection)
        tie_keys.add_functions(self.connection)
        self.connection.set_authorizer(self.may)
        self.connection.set_progress_handler(self.step, STEPS)

    def may(
        self, action: int, one: str | None, two: str | None, base: str | None, inside: str | None
    ) -> int:
        return (
            sqlite3.SQLITE_DENY
            if self.is_strict and barred(action, one, two)
            else sqlite3.SQLITE_OK
        )

    def lawful(self) -> frozenset[Row]:
        return lawful(self.pool)

    def written(self, query: str) -> str:
        return for_sqlite(query)

    def untied(self, query: str) -> list[str]:
        return list(tie_keys.untied_texts(self.written(query), self.pool, "sqlite"))

    def load(self, part: frozenset[Row], backwards: bool = False) -> None:
        if part == self.part and backwards == self.backwards:
            return
        self.steps = -1 << 40
        by_table: dict[int, list[int]] = {}
        for table, number in sorted(part):
            by_table.setdefault(table, []).append(number)
        had = {row.table for row in self.part}
        for at, (held, put) in enumerate(zip(self.pool.held, self.puts)):
            if at in had:
                self.connection.execute(f"DELETE FROM {quoted(held.table.name)}")
            numbers = by_table.get(at, [])
            self.connection.executemany(
                put, [held.rows[number] for number in (numbers[::-1] if backwards else numbers)]
            )
        self.part, self.backwards = part, backwards

    def step(self) -> int:
        self.steps += 1
        return self.steps > MOST_STEPS

    def answer(self, text: str) -> Listed:
        if len(text.encode("utf-8", "replace")) > MOST_TEXT:
            return None
        self.steps, self.is_strict = 0, True
        try:
            cursor = self.connection.execute(text)
            rows = cursor.fetchmany(MOST_ROWS + 1)
        except (sqlite3.Error, sqlite3.Warning, MemoryError, OverflowError, ValueError):
            return None
        finally:
            self.is_strict = False
            self.all_steps += self.steps
        if cursor.description is None or len(rows) > MOST_ROWS:
            cursor.close()
            return None
        return len(cursor.description), rows


def lawful(pool: Pool) -> frozenset[Row]:
    """The rows that meet all rules of the schema together, the earlier of two that don't."""
    text, dependencies = schema_for_sqlite(pool.schema.decode("utf-8", "replace"))
    connection = sqlite3.connect(":memory:", isolation_level=None)
    try:
        connection.executescript(text)
    except sqlite3.Error:
        connection = sqlite3.connect(":memory:")  # the rules of the pool alone are looked at
    primary = [rules.primary for rules in rules_of(pool.schema.decode("utf-8", "replace"))]
    kept: set[Row] = set()
    seen: dict[tuple[object, ...], tuple[Cell, ...]] = {}
    for row in sorted(pool.lawful):
        table = pool.held[row.table].table
        places = {column.name: place for place, column in enumerate(table.columns)}
        cells = pool.held[row.table].rows[row.number]
        if any(cells[places[name]] is None for name in primary[row.table]):
            continue
        broken = False
        for number, rule in enumerate(dependencies):
            if rule.table == table.name:
                of = picked(cells, tuple(places[name] for name in rule.of))
                to = picked(cells, tuple(places[name] for name in rule.to))
                broken |= None not in of and seen.setdefault((number, *of), to) != to
        marks = ", ".join("?" * len(cells))
        try:
            connection.execute(f"INSERT INTO {quoted(table.name)} VALUES ({marks})", cells)
        except sqlite3.OperationalError:
            pass
        except (sqlite3.IntegrityError, OverflowError):
            broken = True
        if not broken:
            kept.add(row)
    connection.close()
    return frozenset(kept - pool.with_sources(pool.lawful - kept))


def drawn(pool: Pool, rows: frozenset[Row], parts: int, seed: str) -> Iterator[frozenset[Row]]:
    """Lawful parts at random, and all rows."""
    chance = random.Random(seed)
    in_order = sorted(rows)
    for _ in range(parts):
        share = chance.choice(SHARES)
        gone = [row for row in in_order if chance.random() >= share]
        yield rows - pool.with_sources(gone)
    yield rows
