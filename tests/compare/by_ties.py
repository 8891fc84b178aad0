"""What `classroom` tries of queries that ties leave open, with SQLite and with PostgreSQL, against
all parts of the rows and all orders of them."""
from __future__ import annotations

import argparse
import multiprocessing
import os
import subprocess
import sys
import time
from collections import Counter
from collections.abc import Iterator
from contextlib import contextmanager
from dataclasses import dataclass, replace
from functools import partial
from itertools import combinations
from random import Random
from typing import Any, Optional, Sequence, TypeVar

from .answer_sets import (
    COLUMNS,
    FROM,
    NUMBERED,
    NUMBERS,
    OF_COLUMN,
    Aggregate,
    Bag,
    Dialect,
    Key,
    Query,
    Tables,
    TooMany,
    Where,
    Window,
)
from .by_postgres import server
from .program import TOP

sys.path.insert(1, str(TOP / "python"))

from classroom.engines import child  # noqa: E402
from classroom.exercise.rows import Held, Pool  # noqa: E402
from classroom.exercise.typed_rows import POSTGRESQL, SQLITE, of_schema  # noqa: E402
from classroom.sql.schema import Column, Table  # noqa: E402
from classroom.verdict.verdict import (  # noqa: E402
    ALL,
    JOINS,
    Differs,
    NoDifference,
    NotDetermined,
)

T = TypeVar("T")
Rows = dict[str, list[tuple[Any, ...]]]
Part = frozenset[tuple[str, int]]  # a row by its table and its number, from 1
SCHEMA = (
    "CREATE TABLE t (id INTEGER PRIMARY KEY, a INTEGER, s TEXT);"
    "CREATE TABLE u (k INTEGER PRIMARY KEY, t INTEGER, b INTEGER);"
)
TYPES = {
    "t": {"id": "INTEGER", "a": "INTEGER", "s": "TEXT"},
    "u": {"k": "INTEGER", "t": "INTEGER", "b": "INTEGER"},
}
OF_NUMBERS = ("COUNT", "SUM", "AVG", "MIN", "MAX")
SECONDS = 60.0  # so many that the time decides nothing


@dataclass(frozen=True)
class Pair:
    rows: Rows
    first: Query
    second: Query
    counts_duplicates: bool


@dataclass(frozen=True)
class Roles:
    """The two connections of a trial in PostgreSQL."""

    loader: str
    asker: str


@dataclass
class Draw:
    random: Random
    dialect: Dialect

    def chance(self, part: float) -> bool:
        return self.random.random() < part

    def pick(self, among: Sequence[T]) -> T:
        return among[self.random.randrange(len(among))]

    def pair(self) -> Pair:
        first = self.query()
        second = self.changed(first) if self.chance(0.7) else self.of_width(first.width())
        return Pair(self.rows(), first, second, self.chance(0.3))

    def rows(self) -> Rows:
        def number() -> Optional[int]:
            return None if self.chance(0.15) else self.pick((1, 1, 2, 3))

        ids = self.random.sample(range(1, 5), self.random.randint(0, 3))
        keys = self.random.sample(range(1, 5), self.random.randint(0, 3))
        return {
            "t": [(at, number(), self.pick(("x", "x", "y", None))) for at in sorted(ids)],
            "u": [(at, number(), number()) for at in sorted(keys)],
        }

    def of_width(self, width: int) -> Query:
        while True:
            made = self.query()
            if made.width() == width:
                return made

    def query(self) -> Query:
        return self.around() if self.chance(0.15) else self.select()

    def around(self) -> Query:
        """A query over one that is cut."""
        inner = self.cut(self.select(), 1.0)
        columns = [f"q.c{at}" for at in range(1, inner.width() + 1)]
        if self.chance(0.4):
            return Query(inner, is_grouped=True, aggregates=(Aggregate("COUNT", columns[0]),))
        return Query(inner, shown=tuple(self.some(columns)))

    def select(self) -> Query:
        source = self.pick(tuple(FROM))
        columns = [
            column
            for name in ("t", "u")
            if source not in COLUMNS or name == source
            for column in COLUMNS[name]
        ]
        where = self.where(columns, source) if self.chance(0.5) else None
        form = self.random.random()
        if form < 0.35:
            group = tuple(self.some(columns)[:1]) if self.chance(0.7) else ()
            made = Query(
                source,
                shown=group,
                where=where,
                is_grouped=True,
                group=group,
                aggregates=tuple(
                    self.aggregate(columns) for _ in range(1 if self.chance(0.8) else 2)
                ),
                least=2 if self.chance(0.2) else 0,
            )
            return self.cut(made, 0.5)
        shown = tuple(self.some(columns))
        if form < 0.65:
            return self.cut(Query(source, shown, where, window=self.window(columns)), 0.3)
        if self.dialect == "postgres" and self.chance(0.3):
            on = self.pick(columns)
            keys = (Key(on, self.chance(0.3)), *self.keys(columns, 0.5))
            return Query(source, shown, where, on=on, keys=keys)
        return self.cut(Query(source, shown, where, is_distinct=self.chance(0.3)), 0.7)

    def cut(self, query: Query, part: float) -> Query:
        """With LIMIT, and a key or two."""
        if not self.chance(part):
            return query
        columns = list(query.shown)
        if query.is_grouped:
            columns = [
                f"c{at}"
                for at in range(1, query.width() + 1)
                if at <= len(query.shown)
                or query.aggregates[at - len(query.shown) - 1].name != "JOIN"
            ]
        elif isinstance(query.source, str) and not query.is_distinct:
            columns = [
                column
                for name in ("t", "u")
                if query.source not in COLUMNS or name == query.source
                for column in COLUMNS[name]
            ]
        return replace(
            query,
            keys=query.keys if query.on else self.keys(columns, 0.85),
            limit=self.pick((1, 1, 2)),
            offset=1 if self.chance(0.25) else 0,
        )

    def some(self, columns: Sequence[str]) -> list[str]:
        return self.random.sample(list(columns), 1 if self.chance(0.6) else min(2, len(columns)))

    def keys(self, columns: Sequence[str], part: float) -> tuple[Key, ...]:
        if not columns or not self.chance(part):
            return ()
        return tuple(Key(column, self.chance(0.4)) for column in self.some(columns))

    def number(self, columns: Sequence[str]) -> str:
        return self.pick([column for column in columns if column in NUMBERS])

    def where(self, columns: Sequence[str], source: str) -> Where:
        column = self.number(columns)
        sign = self.pick(("=", "<>", "<", ">=", "NULL", "NOT NULL", "MAX"))
        return Where(column, sign, self.pick((1, 2, 3)))

    def aggregate(self, columns: Sequence[str]) -> Aggregate:
        form = self.random.random()
        if form < 0.25:
            return Aggregate("COUNT(*)")
        if form < 0.6 and "t.s" in columns:
            key = Key(self.pick(columns), self.chance(0.4))
            is_keyed = self.dialect == "postgres" and self.chance(0.7)
            return Aggregate("JOIN", "t.s", key if is_keyed else None)
        return Aggregate(self.pick(OF_NUMBERS), self.number(columns))

    def window(self, columns: Sequence[str]) -> Window:
        name = self.pick(NUMBERED if self.chance(0.5) else OF_COLUMN)
        partition = self.pick(columns) if self.chance(0.4) else ""
        column = "" if name in NUMBERED else self.number(columns)
        return Window(name, column, partition, self.keys(columns, 0.85))

    def changed(self, query: Query) -> Query:
        """Another of as many columns, by one change."""
        for _ in range(20):
            made = self.change(query)
            if made != query:
                return made
        return self.of_width(query.width())

    def change(self, query: Query) -> Query:
        if isinstance(query.source, Query) and self.chance(0.7):
            inner = self.change(query.source)
            return replace(query, source=inner) if inner.width() == query.source.width() else query
        form = self.pick(("keys", "limit", "offset", "where", "window", "distinct"))
        if form == "keys" and query.keys and not query.on:
            *others, last = query.keys
            return replace(
                query,
                keys=self.pick(((*others, replace(last, is_down=not last.is_down)), tuple(others))),
            )
        if form == "limit" and query.limit:
            return replace(query, limit=3 - query.limit)
        if form == "offset" and query.limit:
            return replace(query, offset=1 - query.offset)
        if form == "where" and query.where:
            value = self.pick((1, 2, 3))
            return replace(query, where=self.pick((None, replace(query.where, value=value))))
        if form == "window" and query.window:
            columns = [query.window.column] if query.window.column else []
            columns += [key.column for key in query.window.keys] or list(query.shown)
            return replace(query, window=replace(query.window, keys=self.keys(columns, 0.8)))
        if form == "distinct" and not query.is_grouped and not query.limit and not query.on:
            return replace(query, is_distinct=not query.is_distinct)
        return query


def pair_of(seed: int, dialect: Dialect) -> Pair:
    return Draw(Random(seed), dialect).pair()


def differing(pair: Pair, dialect: Dialect) -> set[Part]:
    """The parts on which both queries have one answer alone, and not the same."""
    everything = [(name, at) for name, rows in pair.rows.items() for at in range(len(rows))]
    found = set()
    for size in range(len(everything) + 1):
        for kept in combinations(everything, size):
            tables: Tables = {
                name: [
                    dict(zip(COLUMNS[name], pair.rows[name][at])) for of, at in kept if of == name
                ]
                for name in COLUMNS
            }
            one, two = (query.bags(tables, dialect) for query in (pair.first, pair.second))
            if not pair.counts_duplicates:
                one, two = ({as_set(bag) for bag in bags} for bags in (one, two))
            if len(one) == len(two) == 1 and one != two:
                found.add(frozenset((name, at + 1) for name, at in kept))
    return found


def as_set(bag: Bag) -> Bag:
    return frozenset((line, 1) for line, _ in bag)


def tried(pair: Pair, dialect: Dialect, roles: Optional[Roles]) -> Any:
    held = [
        Held(Table(name, tuple(Column(*of) for of in columns.items())), pair.rows[name], [(0,)], [])
        for name, columns in TYPES.items()
    ]
    material = of_schema(Pool(SCHEMA.encode(), held), POSTGRESQL if roles else SQLITE)
    question: dict[str, Any] = {
        "reference": pair.first.sql(dialect),
        "answer": pair.second.sql(dialect),
        "duplicates": pair.counts_duplicates,
        "seconds": SECONDS,
    }
    if roles:
        question |= {"engine": roles.loader, "asker": roles.asker}
    return child.tried(material, question).outcome


def compared(seed: int, roles: Optional[Roles]) -> tuple[int, str, str]:
    """The seed, "same" or what else it is, and the text of a difference."""
    dialect: Dialect = "postgres" if roles else "sqlite"
    pair = pair_of(seed, dialect)
    try:
        parts = differing(pair, dialect)
    except TooMany:
        return seed, "with too many orders", ""
    found = tried(pair, dialect, roles)
    least = min(map(len, parts), default=None)
    told = ""
    if isinstance(found, Differs):
        kept = frozenset((row.table, row.number) for row in found.kept)
        if kept not in parts:
            told = "the witness is none"
        elif len(kept) != least and found.least in (ALL, JOINS):
            told = f"there is one of {least} rows, and all smaller ones are said to be tried"
        elif len(kept) != least:
            return seed, "with a larger witness", ""
    elif not isinstance(found, (NoDifference, NotDetermined)):
        told = "a query is refused"
    elif least is not None:
        told = f"there is a witness of {least} rows"
    if not told:
        return seed, "same" if least is None else "same, with a witness", ""
    texts = [str(pair.rows), pair.first.sql(dialect), pair.second.sql(dialect), str(found), told]
    return seed, "differs", "\n".join(texts)


def run(first: int, count: int, jobs: int, roles: Optional[Roles] = None) -> Counter[str]:
    """How many pairs had which outcome. Each difference is printed with its seed."""
    outcomes: Counter[str] = Counter()
    with multiprocessing.Pool(jobs) as pool:
        seeds = range(first, first + count)
        for seed, outcome, text in pool.imap_unordered(
            partial(compared, roles=roles), seeds, chunksize=4
        ):
            outcomes[outcome] += 1
            if text:
                print(f"\ncompare_ties: seed {seed}\n{text}", flush=True)
    return outcomes


@contextmanager
def roles_of_a_server() -> Iterator[Roles]:
    """The roles that docs/SERVER.md makes, in a server of its own."""
    page = (TOP / "docs/SERVER.md").read_text(encoding="utf-8")
    lines = "CREATE ROLE" + page.split("```\nCREATE ROLE")[1].split("```")[0]
    with server() as address:
        subprocess.run(
            ["psql", "-X", "-q", "-v", "ON_ERROR_STOP=1", "-d", address],
            input=lines,
            text=True,
            check=True,
        )
        place = f"{address.split()[0]} dbname=ratest_scratch"
        yield Roles(f"{place} user=ratest_loader", f"{place} user=ratest_asker")


def main(about: str) -> int:
    parser = argparse.ArgumentParser(prog="compare_ties", description=about)
    parser.add_argument("--count", type=int, default=1000, help="how many pairs, in each database")
    parser.add_argument(
        "--from", type=int, default=0, dest="first", help="the seed of the first pair (0)"
    )
    parser.add_argument(
        "--jobs", type=int, default=os.cpu_count() or 1, help="how many at a time (all processors)"
    )
    words = parser.parse_args()
    is_same = True
    with roles_of_a_server() as roles:
        for name, of in (("SQLite", None), ("PostgreSQL", roles)):
            start = time.monotonic()
            outcomes = run(words.first, words.count, words.jobs, of)
            counts = ", ".join(f"{count} {outcome}" for outcome, count in sorted(outcomes.items()))
            print(
                f"compare_ties: {words.count} pairs from seed {words.first} with {name} in"
                f" {time.monotonic() - start:.0f} seconds: {counts}"
            )
            is_same = is_same and not outcomes["differs"]
    return 0 if is_same else 1
