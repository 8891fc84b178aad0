"""IS NULL for = NULL and back, and a condition that is to hold for NULL too.

Students compare with NULL, which is never true, or forget the rows in which a column has no value.
"""
from __future__ import annotations

from collections.abc import Iterator

from sqlglot import exp

from classroom.edits.change import Change, Kind
from classroom.edits.query import Query
from classroom.sql.scopes import is_star
from classroom.sql.tree import COMPARISONS, Node, written
from classroom.edits.vocabulary import place_of


def changes(node: Node, query: Query) -> Iterator[Change]:
    if not isinstance(getattr(node, "expression", None), exp.Null):
        return
    side = query.source(node.this)
    if isinstance(node, exp.Is):
        yield query.instead(node, "= NULL for IS NULL", Kind.NULL, 4, f"{side} = NULL")
    elif isinstance(node, exp.EQ):
        yield query.instead(node, "IS NULL for = NULL", Kind.NULL, 1, f"{side} IS NULL")
    elif isinstance(node, exp.NEQ):
        yield query.instead(node, "IS NOT NULL for <> NULL", Kind.NULL, 1, f"NOT {side} IS NULL")


def allowed(node: Node, query: Query) -> Iterator[Change]:
    """`OR x IS NULL` behind a comparison or an IN, and `AND x IS NOT NULL`."""
    if isinstance(node, COMPARISONS):
        sides = [node.this, node.expression]
    elif isinstance(node, (exp.In, exp.Between)):
        sides = [node.this]
    else:
        return
    whole = query.source(node)
    for side in sides:
        if (
            isinstance(side, exp.Column)
            and not is_star(side)
            and place_of(side, query.scopes) not in query.vocabulary.whole
        ):
            yield query.instead(
                node,
                f"OR {written(side)} IS NULL added",
                Kind.NULL,
                4,
                f"{whole} OR {query.source(side)} IS NULL",
                True,
            )
            yield query.instead(
                node,
                f"{written(side)} IS NOT NULL added",
                Kind.NULL,
                4,
                f"{whole} AND {query.source(side)} IS NOT NULL",
                True,
            )
