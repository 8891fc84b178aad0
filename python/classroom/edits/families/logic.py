"""A condition dropped, AND and OR for one another or grouped otherwise, NOT dropped and added.

Students write AND where the sentence says "and" of two groups of rows, leave out the parentheses,
ask for too much, or forget a NOT before EXISTS or IN. """
from __future__ import annotations

from collections.abc import Iterator

from sqlglot import exp

from classroom.edits.change import Change, Kind
from classroom.edits.query import Query
from classroom.sql.spans import Span
from classroom.sql.tree import Node, bare, written

# What a change of a NOT is to a student.
TESTS = (exp.Exists, exp.In)


def changes(node: Node, query: Query) -> Iterator[Change]:
    if isinstance(node, exp.Where):
        begin, end = query.span(node)
        yield Change(
            "the condition dropped",
            Kind.CONDITION_TOO_MANY,
            2,
            Span(len(query.text[:begin].rstrip(" ")), end),
            "",
            Span(begin, end),
        )
    if isinstance(node, exp.Connector):
        sign, words = ("OR", "OR for AND") if isinstance(node, exp.And) else ("AND", "AND for OR")
        for part, rest in ((node.this, node.expression), (node.expression, node.this)):
            if not isinstance(bare(part), type(node)):
                yield query.instead(
                    node,
                    f"{written(bare(part))} dropped",
                    Kind.CONDITION_TOO_MANY,
                    2,
                    query.source(bare(rest)),
                    isinstance(bare(rest), exp.Connector),
                    query.span(bare(part)),
                )
        yield query.instead(
            node,
            words,
            Kind.CONNECTIVE,
            2,
            f"{query.source(node.this)} {sign} {query.source(node.expression)}",
            True,
        )
    if isinstance(node, exp.Not):
        inner = bare(node.this)
        kind = Kind.QUANTIFIER if isinstance(inner, TESTS) else Kind.NEGATION
        yield query.instead(
            node, "NOT dropped", kind, 2, query.source(inner), isinstance(inner, exp.Connector)
        )
    elif can_be_negated(node):
        whole = query.source(node)
        yield query.instead(
            node,
            "NOT added",
            Kind.QUANTIFIER if isinstance(node, TESTS) else Kind.NEGATION,
            2,
            f"NOT ({whole})" if isinstance(node, exp.Connector) else f"NOT {whole}",
        )


def can_be_negated(node: Node) -> bool:
    """Whether a NOT before a condition makes a query that no other change makes: before a
    comparison it is another comparison, and behind a NOT it is the NOT dropped."""
    outer = above(node)
    if isinstance(node, exp.Connector):
        return not isinstance(outer, (exp.Not, exp.Connector))
    return isinstance(node, (exp.Exists, exp.In, exp.Between, exp.Is)) and not isinstance(
        outer, exp.Not
    )


def above(node: Node) -> Node | None:
    """The parent, parentheses aside."""
    parent = node.parent
    while isinstance(parent, exp.Paren):
        parent = parent.parent
    return parent


def grouped(node: Node, query: Query) -> Iterator[Change]:
    """`a AND (b OR c)` for `a AND b OR c`, and back."""
    words = "AND and OR grouped otherwise"
    if isinstance(node, exp.Or):
        for side, other in ((node.this, node.expression), (node.expression, node.this)):
            if isinstance(side, exp.And):
                near, far = (
                    (side.expression, side.this)
                    if side is node.this
                    else (side.this, side.expression)
                )
                first, last = (near, other) if side is node.this else (other, near)
                inner = f"({query.source(first)} OR {query.source(last)})"
                whole = (
                    f"{query.source(far)} AND {inner}"
                    if side is node.this
                    else f"{inner} AND {query.source(far)}"
                )
                yield query.instead(node, words, Kind.CONNECTIVE, 2, whole, True)
    if isinstance(node, exp.And):
        for side, other in ((node.this, node.expression), (node.expression, node.this)):
            inside = bare(side)
            if isinstance(inside, exp.Or):
                ways = (
                    (
                        f"{query.source(inside.this)} AND {query.source(other)} OR"
                        f" {query.source(inside.expression)}"
                    ),
                    (
                        f"{query.source(inside.this)} OR {query.source(inside.expression)} AND"
                        f" {query.source(other)}"
                    ),
                )
                for way in ways:
                    yield query.instead(node, words, Kind.CONNECTIVE, 2, way, True)
