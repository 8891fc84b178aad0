"""Lawful parts of the rows as masks: bit I of a part stands for row I, by tables and their rows in
order."""
from __future__ import annotations

import random
from collections.abc import Collection, Iterator
from typing import NamedTuple

from classroom.exercise.rows import Pool, Row

Mask = int
# How often a random part grows by a row that refers to one in it.
RELATED = 0.7


class Unit(NamedTuple):
    """What a part gains at once: a row, or a circle of rows that refer to each other, with the rows
    of other tables that it needs."""

    gained: Mask
    needed: Mask  # what has to be there before


class Parts:
    """The lawful parts of a pool: sets of rows with all that they refer to."""

    def __init__(self, pool: Pool) -> None:
        self.pool = pool
        self.rows: list[Row] = sorted(pool.lawful)
        self.index = {row: at for at, row in enumerate(self.rows)}
        self.up = [self.mask(pool.with_targets(row)) for row in self.rows]  # with what it refers to
        # With what refers to it; rows that are in no part refer to it too.
        self.down = [self.mask(pool.with_sources([row]) & pool.lawful) for row in self.rows]
        self.listed: tuple[Mask, list[int]] = (
            0,
            [],
        )  # the places of the part that random ones were last taken of

    def mask(self, rows: Collection[Row]) -> Mask:
        return sum(1 << self.index[row] for row in set(rows))

    def table(self, at: int) -> int:
        """The number of the table of a row."""
        return self.rows[at].table

    def of_tables(self, tables: Collection[int]) -> Mask:
        """The rows of some tables with all that they refer to."""
        made = 0
        for at, row in enumerate(self.rows):
            if row.table in tables:
                made |= self.up[at]
        return made

    def without(self, part: Mask, gone: Collection[int]) -> Mask:
        """The part without some rows and what refers to them."""
        dead = 0
        for at in gone:
            dead |= self.down[at]
        return part & ~dead

    def is_lawful(self, part: Mask) -> bool:
        return all(self.up[at] & ~part == 0 for at in bits(part))

    def units(self, tables: Collection[int]) -> list[Unit]:
        """Of the rows of some tables, needed ones first."""
        named = sum(1 << at for at, row in enumerate(self.rows) if row.table in tables)
        made: list[Unit] = []
        done = 0
        for at in sorted(bits(named), key=lambda one: (self.up[one].bit_count(), one)):
            if done >> at & 1:
                continue
            circle = self.up[at] & self.down[at]
            done |= circle
            made.append(Unit(circle | self.up[at] & ~named, self.up[at] & named & ~circle))
        return made

    def of_size(self, tables: Collection[int], size: int) -> Iterator[Mask]:
        """The lawful parts of just this many rows that are rows of some tables with what these
        need."""
        units = self.units(tables)

        def grown(begin: int, part: Mask, left: int) -> Iterator[Mask]:
            if left == 0:
                yield part
                return
            for at in range(begin, len(units)):
                unit = units[at]
                if unit.needed & ~part:
                    continue
                gained = (unit.gained & ~part).bit_count()
                if gained <= left:
                    yield from grown(at + 1, part | unit.gained, left - gained)

        yield from grown(0, 0, size)

    def below(self, tables: Collection[int], size: int) -> Iterator[Mask]:
        """Those of fewer rows, the smallest first."""
        for less in range(size):
            yield from self.of_size(tables, less)

    def random_part(self, whole: Mask, most: int, chance: random.Random) -> Mask:
        """A part of the rows of `whole`, of at most so many."""
        if self.listed[0] != whole:
            self.listed = whole, list(bits(whole))
        rows, part = self.listed[1], 0
        for _ in range(most if rows else 0):
            at = chance.choice(rows)
            if part and chance.random() < RELATED:
                base = self.rows[chance.choice(list(bits(part)))]
                near = [self.index[row] for row in self.pool.sources[base] if row in self.index]
                at = chance.choice([one for one in near if whole >> one & 1] or [at])
            if (part | self.up[at]).bit_count() <= most:
                part |= self.up[at]
        return part


def bits(mask: Mask) -> Iterator[int]:
    """The places of a mask's bits, the lowest first."""
    while mask:
        bit = mask & -mask
        yield bit.bit_length() - 1
        mask ^= bit
