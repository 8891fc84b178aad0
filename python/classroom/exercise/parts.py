"""Lawful parts of the rows: each is a list of rows of which every first piece can be made
lawful."""
from __future__ import annotations

import random
from collections.abc import Iterator

from classroom.exercise.rows import Pool, Row
from classroom.sql.schema import MOST_ROWS

__all__ = ["MOST_ROWS", "chosen", "filled", "first"]

# Of the rows that refer to a chosen one so many come with it, so that related rows stand together.
MOST_RELATED = 3


def first(pool: Pool, most: int) -> list[Row]:
    """At most so many rows, the first ones of each table alike, with those that they refer to."""
    return filled(pool, in_turns(pool), most)


def in_turns(pool: Pool) -> Iterator[Row]:
    for number in range(max((len(held.rows) for held in pool.held), default=0)):
        for table, held in enumerate(pool.held):
            if number < len(held.rows):
                yield Row(table, number)


def chosen(pool: Pool, most: int, seed: str) -> list[Row]:
    """At most so many rows at random, each table's alike, with some that refer to them."""
    chance = random.Random(seed)
    orders = []
    for table, held in enumerate(pool.held):
        rows = [Row(table, number) for number in range(len(held.rows))]
        chance.shuffle(rows)
        orders.append(rows)

    def rows_in_turns() -> Iterator[Row]:
        for number in range(max(map(len, orders), default=0)):
            for order in orders:
                if number < len(order) and order[number] in pool.lawful:
                    yield order[number]
                    related = [row for row in pool.sources[order[number]] if row in pool.lawful]
                    yield from chance.sample(related, min(MOST_RELATED, len(related)))

    return filled(pool, rows_in_turns(), most)


def filled(pool: Pool, rows: Iterator[Row], most: int) -> list[Row]:
    """The rows in turn with what they refer to, as long as there is room for all of it."""
    found: dict[Row, None] = {}
    for row in rows:
        if row not in pool.lawful or row in found:
            continue
        more = [other for other in pool.with_targets(row) if other not in found]
        if len(found) + len(more) <= most:
            found.update(dict.fromkeys(more))
        if len(found) == most:
            break
    return list(found)
