"""Rows that are made for a schema from a seed: few values, so that there are ties, NULLs, and what
the rows at hand lack. They obey the schema: SQLite takes them under all of its rules."""
from __future__ import annotations

import random
import sqlite3
from collections.abc import Sequence

from classroom.exercise.rows import Cell, Cells, Foreign, Held, Pool
from classroom.exercise.rules import rules_of
from classroom.sql.sqlite_schema import for_sqlite
from classroom.sql.schema import Column, quoted

ROWS = 80  # about so many in all tables together
FEWEST = 5  # in one
TRIES = 15  # for a row
NULLS = 0.12
LIKED = 0.3  # of the rows refer to one that has a constant of the queries
SMALL = (0, 1, 2, 3)


def pool_of(
    rows: Pool, numbers: Sequence[int], texts: Sequence[str], seed: str, about: int = ROWS
) -> Pool | None:
    """Rows for the schema of a pool, with its values and with constants of queries; None where the
    schema can't be had in SQLite or takes no rows."""
    schema = rows.schema.decode("utf-8", "replace")
    text, _ = for_sqlite(schema)
    connection = sqlite3.connect(":memory:", isolation_level=None)
    try:
        connection.executescript(text)
        connection.execute("PRAGMA foreign_keys = ON")
    except sqlite3.Error:
        return None
    made = _Maker(rows, numbers, texts, connection, seed, about)
    for at in order_of(rows.held):
        made.fill(at)
    connection.close()
    if not any(made.rows):
        return None
    return Pool(
        rows.schema,
        [
            Held(held.table, made.rows[at], held.keys, held.foreigns)
            for at, held in enumerate(rows.held)
        ],
    )


def order_of(tables: Sequence[Held]) -> list[int]:
    """The tables, each behind those that it refers to as far as that can be."""
    found: list[int] = []
    left = list(range(len(tables)))
    while left:
        free = [
            at
            for at in left
            if all(foreign.table in found or foreign.table == at for foreign in tables[at].foreigns)
        ]
        found.append((free or left)[0])
        left.remove(found[-1])
    return found


class _Maker:
    def __init__(
        self,
        pool: Pool,
        numbers: Sequence[int],
        texts: Sequence[str],
        connection: sqlite3.Connection,
        seed: str,
        about: int,
    ) -> None:
        self.pool = pool
        self.about = about
        self.chance = random.Random(seed)
        self.connection = connection
        self.rows: list[list[Cells]] = [[] for _ in pool.held]
        self.primary = [rules.primary for rules in rules_of(pool.schema.decode("utf-8", "replace"))]
        self.numbers = [number + step for number in numbers for step in (-1, 0, 1)]
        self.texts = list(texts)
        self.constants = {*numbers, *texts}
        self.referred = {foreign.table for held in pool.held for foreign in held.foreigns}
        self.values = {
            column_key(column): self.of_column(column)
            for held in pool.held
            for column in held.table.columns
        }

    def of_column(self, like: Column) -> list[Cell]:
        """A few values of the columns of one name and kind, which are told from one another by most
        queries."""
        there = sorted(
            {
                row[place]
                for held in self.pool.held
                for place, column in enumerate(held.table.columns)
                if column_key(column) == column_key(like)
                for row in held.rows
                if row[place] is not None
            },
            key=str,
        )
        some: list[Cell] = list(self.chance.sample(there, min(4, len(there))))
        if like.kind == "INTEGER":
            return [*some, *self.chance.sample(SMALL, 2), *self.numbers]
        return [*some, *self.texts, *self.texts, f"{like.name[:1]}1", f"{like.name[:1]}2"]

    def fill(self, at: int) -> None:
        held = self.pool.held[at]
        is_root = at in self.referred and not held.foreigns
        wanted = (
            FEWEST + self.about // 20
            if is_root
            else max(FEWEST, self.about // max(1, len(self.pool.held) - len(self.referred) // 2))
        )
        marks = ", ".join("?" * len(held.table.columns))
        for _ in range(wanted * TRIES):
            if len(self.rows[at]) >= wanted:
                break
            row = self.row(at)
            if any(
                row[place] is None
                for place, column in enumerate(held.table.columns)
                if column.name in self.primary[at]
            ):
                continue
            try:
                self.connection.execute(
                    f"INSERT INTO {quoted(held.table.name)} VALUES ({marks})", row
                )
            except (sqlite3.Error, OverflowError):
                continue
            self.rows[at].append(row)

    def row(self, at: int) -> Cells:
        held = self.pool.held[at]
        cells: list[Cell] = [self.value(at, column) for column in held.table.columns]
        if self.rows[at] and self.chance.random() < 0.3:
            # Rows that differ in one column.
            like = self.chance.choice(self.rows[at])
            kept = self.chance.randrange(len(cells))
            cells = [cells[place] if place == kept else value for place, value in enumerate(like)]
        for foreign in held.foreigns:
            self.refer(cells, foreign)
        return tuple(cells)

    def value(self, at: int, column: Column) -> Cell:
        if self.chance.random() < NULLS:
            return None
        values = self.values[column_key(column)]
        if column.name in self.primary[at] and self.chance.random() < 0.5:
            number = self.chance.randrange(self.about // 6)
            return number if column.kind == "INTEGER" else f"{column.name[:1]}{number}"
        return self.chance.choice(values)

    def refer(self, cells: list[Cell], foreign: Foreign) -> None:
        """Lets a row refer to one that is there; some have NULL in its place."""
        targets = self.rows[foreign.table]
        if not targets:
            return
        liked = [row for row in targets if self.constants.intersection(row)]
        target = self.chance.choice(liked if liked and self.chance.random() < LIKED else targets)
        for place, to in zip(foreign.places, foreign.to):
            if cells[place] is not None or self.chance.random() < 0.7:
                cells[place] = target[to]


def column_key(column: Column) -> tuple[str, str]:
    return column.name, column.kind
