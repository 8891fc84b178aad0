"""A whole number one higher or lower, and another constant of the two queries.

Students read "more than 3" as "at least 3", count from the wrong end, or take the constant of
another task. """
from __future__ import annotations

from collections.abc import Iterator

from sqlglot import exp

from classroom.edits.change import Change, Kind
from classroom.edits.query import Query
from classroom.sql.tree import Node
from classroom.sql.schema import literal


def changes(node: Node, query: Query) -> Iterator[Change]:
    value = number(node)
    if value is None or isinstance(node.parent, exp.Neg):
        return
    for other in (value + 1, value - 1):
        yield query.instead(node, f"{other} for {value}", Kind.CONSTANT, 2, str(other))


def others(node: Node, query: Query) -> Iterator[Change]:
    """The constants that the queries have."""
    if not isinstance(node, (exp.Literal, exp.Neg)) or isinstance(
        node.parent, (exp.Neg, exp.Limit, exp.Offset)
    ):
        return
    value = number(node)
    if value is None and not (isinstance(node, exp.Literal) and node.is_string):
        return
    known: int | str = str(node.this) if value is None else value
    for other in query.vocabulary.constants("TEXT" if value is None else "INTEGER"):
        if other != known:
            text = literal(other)
            cost = 1 if other in query.vocabulary.wanted else 2
            yield query.instead(node, f"{text} for {literal(known)}", Kind.CONSTANT, cost, text)


def number(node: Node) -> int | None:
    """The whole number that a node is; None where it is none."""
    if isinstance(node, exp.Neg) and isinstance(node.this, exp.Literal):
        value = number(node.this)
        return None if value is None else -value
    if isinstance(node, exp.Literal) and not node.is_string and str(node.this).isdecimal():
        return int(node.this)
    return None
