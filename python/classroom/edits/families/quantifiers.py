"""NOT EXISTS for a JOIN, with none or one of its conditions the other way round.

Students ask for some row where no row or every row is meant.
"""
from __future__ import annotations

from collections.abc import Iterator

from sqlglot import exp

from classroom.edits.block import Block, block_of
from classroom.edits.change import Change, Kind
from classroom.edits.families.joins import apart, semijoin_of
from classroom.edits.query import Query
from classroom.sql.scopes import name_in_from
from classroom.sql.tree import Node, bare, written


def changes(node: Node, query: Query) -> Iterator[Change]:
    block = block_of(node, query)
    if block:
        yield from of_joins(block)
        yield from of_tests(block)


def of_joins(block: Block) -> Iterator[Change]:
    for member, inside, outside, others in apart(block):
        for at in range(-1, len(inside)):
            parts = [
                block.opposite(one) if at == place else block.qualified(one)
                for place, one in enumerate(inside)
            ]
            where = " WHERE " + " AND ".join(parts) if parts else ""
            test = f"NOT EXISTS (SELECT * FROM {block.query.source(member)}{where})"
            words = f", {written(inside[at])} negated" if at >= 0 else ""
            yield block.query.instead(
                block.select,
                f"NOT EXISTS for the JOIN with {name_in_from(member)}{words}",
                Kind.QUANTIFIER,
                5,
                block.written(others, [*map(block.qualified, outside), test]),
                place=block.query.span(member),
            )


def of_tests(block: Block) -> Iterator[Change]:
    """EXISTS negated together with one of its conditions: every for some."""
    query = block.query
    for condition in block.conditions:
        is_negated = isinstance(condition, exp.Not)
        test = bare(condition.this) if is_negated else condition
        inner = semijoin_of(test, query) if isinstance(test, exp.Exists) else None
        for at in range(len(inner.conditions) if inner else 0):
            assert inner
            parts = [
                inner.opposite(one) if at == place else inner.qualified(one)
                for place, one in enumerate(inner.conditions)
            ]
            made = f"EXISTS ({inner.written(inner.from_text(), parts)})"
            words = "EXISTS for NOT EXISTS" if is_negated else "NOT EXISTS for EXISTS"
            yield query.instead(
                condition,
                f"{words}, {written(inner.conditions[at])} negated",
                Kind.QUANTIFIER,
                5,
                made if is_negated else f"NOT {made}",
            )
