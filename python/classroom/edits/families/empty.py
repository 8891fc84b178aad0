"""A query that never answers with a row.

Students ask one row for two values of a column at once, or compare with NULL.
"""
from __future__ import annotations

from collections.abc import Iterator

from classroom.edits.block import block_of
from classroom.edits.change import Change, Kind
from classroom.edits.query import Query
from classroom.sql.tree import Node


def changes(node: Node, query: Query) -> Iterator[Change]:
    block = block_of(node, query)
    if block is None:
        return
    span, text = block.replaced(["0 = 1"])
    words = "always empty" if node.parent is None else "always empty there"
    yield Change(words, Kind.EMPTY, 7, span, text, block.place())
