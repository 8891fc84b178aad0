"""Parts of the rows, against all of their subsets."""
from __future__ import annotations

import itertools
import random

import shop

from classroom.exercise.rows import Foreign, Held, Pool
from classroom.sql.schema import Column, Table
from classroom.engines import join_tuples as joins
from classroom.exercise.part_masks import Parts, bits


def circles() -> Parts:
    """Departments with heads, who are employees of departments and have bosses."""

    def held(
        name: str, columns: str, rows: list[tuple[int | None, ...]], foreigns: list[Foreign]
    ) -> Held:
        return Held(
            Table(name, tuple(Column(one, "INTEGER") for one in columns.split())),
            list(rows),
            [],
            foreigns,
        )

    return Parts(
        Pool(
            b"",
            [
                held("dept", "id head", [(1, 1), (2, None), (3, 3)], [Foreign((1,), 1, (0,))]),
                held(
                    "emp",
                    "id boss dept",
                    [(1, 1, 1), (2, 1, 1), (3, 2, 2), (4, None, 2), (5, 3, 3)],
                    [Foreign((1,), 1, (0,)), Foreign((2,), 0, (0,))],
                ),
                held("badge", "emp no", [(1, 7), (5, 7), (None, 9)], [Foreign((0,), 1, (0,))]),
            ],
        )
    )


def test_lawful_parts_are_those_of_the_definition() -> None:
    for parts in (circles(), Parts(shop.pool(3, 2, 3, 3))):
        tables = set(range(len(parts.pool.held)))
        found = list(parts.below(tables, len(parts.rows) + 1))
        assert len(found) == len(set(found))
        assert set(found) == set(shop.all_lawful(parts))
        assert [mask.bit_count() for mask in found] == sorted(mask.bit_count() for mask in found)


def test_parts_over_some_tables_have_the_rest_only_where_it_is_needed() -> None:
    parts = circles()
    wanted = {
        part
        for part in shop.all_lawful(parts)
        if part
        == parts.mask(
            [
                row
                for at in bits(part)
                if parts.table(at) == 1
                for row in parts.pool.with_targets(parts.rows[at])
            ]
        )
    }
    assert set(parts.below({1}, len(parts.rows) + 1)) == wanted


def test_without_a_row_and_random_parts_are_lawful() -> None:
    parts = circles()
    chance = random.Random(1)
    whole = (1 << len(parts.rows)) - 1
    for at in range(len(parts.rows)):
        assert (
            parts.is_lawful(parts.without(whole, [at])) and not parts.without(whole, [at]) >> at & 1
        )
    made = {parts.random_part(whole, 6, chance) for _ in range(300)}
    assert len(made) > 20 and all(parts.is_lawful(part) and part.bit_count() <= 6 for part in made)


def test_unions_are_all_unions() -> None:
    chance = random.Random(2)
    for _ in range(50):
        masks = [chance.randrange(1, 1 << 10) & chance.randrange(1, 1 << 10) for _ in range(7)]
        wanted = {0}
        for mask in masks:
            wanted |= {mask | other for other in wanted}
        for most in range(12):
            found = list(joins.unions(masks, most, 10_000))
            assert len(found) == len(set(found))
            assert set(found) == {mask for mask in wanted if mask.bit_count() < most}
    assert list(joins.unions([1 << at for at in range(20)], 21, 100))[-1] is None


def test_of_unions_the_smallest_are_told_where_not_all_are_wanted() -> None:
    chance = random.Random(3)
    for _ in range(200):
        masks = [chance.randrange(1, 1 << 10) & chance.randrange(1, 1 << 10) for _ in range(7)]
        every = list(joins.unions(masks, 11, 10_000))
        wanted = chance.randrange(1, 40)
        found = list(joins.unions(masks, 11, 10_000, wanted))
        parts = [part for part in found if part is not None]
        assert (
            found == every
            if None not in found
            else found.index(None) == len(found) - 1 and len(parts) >= wanted
        )
        assert len(parts) == len(set(parts)) and set(parts) <= set(every)
        sizes = [part.bit_count() for part in parts[:wanted]]
        assert sizes == [part.bit_count() for part in every[:wanted] if part is not None]
    # Few of many are told without that the others are remembered.
    pairs = [1 << one | 1 << other for one in range(60) for other in range(one)]
    assert None not in list(itertools.islice(joins.unions(pairs, 61, 5_000, 3_000), 3_000))
    assert None in list(itertools.islice(joins.unions(pairs, 61, 5_000), 3_000))
