"""Another of the six comparisons.

Students take `<` for `<=` at a bound, write a comparison the wrong way round, or `=` for `<>`
between two copies of a table. """
from __future__ import annotations

from collections.abc import Iterator

from sqlglot import exp

from classroom.edits.change import Change, Kind
from classroom.edits.query import Query
from classroom.sql.tree import COMPARISONS, Node

# With or without equality, and the other way round.
NEAR = (
    {exp.LT, exp.LTE},
    {exp.GT, exp.GTE},
    {exp.LT, exp.GT},
    {exp.LTE, exp.GTE},
    {exp.EQ, exp.NEQ},
)
SIGNS = {exp.EQ: "=", exp.NEQ: "<>", exp.LT: "<", exp.LTE: "<=", exp.GT: ">", exp.GTE: ">="}


def changes(node: Node, query: Query) -> Iterator[Change]:
    if not isinstance(node, COMPARISONS) or isinstance(node.expression, exp.Null):
        return
    for kind in COMPARISONS:
        if not isinstance(node, kind):
            is_near = {kind, type(node)} in NEAR
            yield query.instead(
                node,
                f"{SIGNS[kind]} for {SIGNS[type(node)]}",
                Kind.COMPARISON,
                1 if is_near else 2,
                f"{query.source(node.this)} {SIGNS[kind]} {query.source(node.expression)}",
            )
