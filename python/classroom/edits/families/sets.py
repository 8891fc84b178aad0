"""UNION, EXCEPT and INTERSECT for one another, their operands exchanged, and an operand too many.

Students take "both" for UNION, "without" the wrong way round, or subtract what was not to be.
"""
from __future__ import annotations

from collections.abc import Iterator

from sqlglot import exp

from classroom.edits.change import Change, Kind
from classroom.edits.query import Query
from classroom.sql.tree import SETS, Node

WORDS = {exp.Union: "UNION", exp.Except: "EXCEPT", exp.Intersect: "INTERSECT"}


def changes(node: Node, query: Query) -> Iterator[Change]:
    if not isinstance(node, SETS):
        return
    left, right = operand(node.this, query), operand(node.expression, query)
    # Except and Intersect are kinds of Union in sqlglot.
    for kind, word in WORDS.items():
        if kind is not type(node):
            yield change(
                node, query, f"{word} for {WORDS[type(node)]}", 3, f"{left} {word} {right}"
            )
    word = WORDS[type(node)]
    yield change(node, query, f"the operands of {word} exchanged", 3, f"{right} {word} {left}")


def operands(node: Node, query: Query) -> Iterator[Change]:
    """One of them alone."""
    if not isinstance(node, SETS):
        return
    word = WORDS[type(node)]
    for part, other, which in (
        (node.this, node.expression, "first"),
        (node.expression, node.this, "second"),
    ):
        whole = bare_query(part)
        text = query.source(whole)
        is_below = isinstance(whole, SETS) and isinstance(around(node), SETS)
        yield Change(
            f"the {which} operand of {word} alone",
            Kind.OPERAND_TOO_MANY,
            2,
            query.span(node),
            f"({text})" if is_below else text,
            query.span(other),
        )


def change(node: Node, query: Query, mistake: str, cost: int, text: str) -> Change:
    """In parentheses below another set operator, unless they stand there."""
    is_below = (
        isinstance(node.parent, SETS)
        or isinstance(node.parent, exp.Subquery)
        and isinstance(around(node), SETS)
        and not stands_in_parentheses(node, query)
    )
    return query.instead(node, mistake, Kind.SET, cost, f"({text})" if is_below else text)


def stands_in_parentheses(node: Node, query: Query) -> bool:
    return node.parent is not None and query.span(node.parent) != query.span(node)


def operand(node: Node, query: Query) -> str:
    """An operand as it can stand on either side: in parentheses where it is itself by a set
    operator."""
    whole = bare_query(node)
    return f"({query.source(whole)})" if isinstance(whole, SETS) else query.source(node)


def bare_query(node: Node) -> Node:
    while isinstance(node, exp.Subquery) and not node.args.get("alias"):
        node = node.this
    return node


def around(node: Node) -> Node | None:
    parent = node.parent
    while isinstance(parent, exp.Subquery) and not parent.args.get("alias"):
        parent = parent.parent
    return parent
