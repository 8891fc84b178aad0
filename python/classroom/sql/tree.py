"""Queries as trees of sqlglot."""
from __future__ import annotations

from collections.abc import Iterator

import sqlglot
from sqlglot import exp
from sqlglot.errors import SqlglotError

from classroom.base.errors import Fault

Node = exp.Expression
# What sqlglot raises at odd texts: IndexError where an escape is at the end of a text in quotes,
# RuntimeError where a text has no end or is too deep, the others by its trees.
UNREAD = (SqlglotError, RuntimeError, LookupError, ValueError, TypeError, AttributeError)
SETS = (exp.Union, exp.Except, exp.Intersect)
COMPARISONS = (exp.EQ, exp.NEQ, exp.LT, exp.LTE, exp.GT, exp.GTE)


def parsed(text: str) -> Node:
    """The tree of a query; a Fault where sqlglot doesn't read it."""
    try:
        tree: Node = sqlglot.parse_one(text)
    except UNREAD:
        raise Fault("sqlglot does not read the query") from None
    if not isinstance(tree, (exp.Select, exp.Subquery, *SETS)):
        raise Fault("sqlglot reads the query as something else")
    return regrouped(tree)


def written(tree: Node) -> str:
    return str(tree.sql(comments=False))


def nodes(tree: Node) -> Iterator[Node]:
    """All nodes, each before its parts, in the order of the text."""
    for node, _, _ in tree.dfs():
        yield node


def bare(node: Node) -> Node:
    while isinstance(node, exp.Paren):
        node = node.this
    return node


def conjuncts(condition: Node | None) -> list[Node]:
    """The parts of an AND, from the left; none of no condition."""
    if condition is None:
        return []
    inner = bare(condition)
    if isinstance(inner, exp.And):
        return conjuncts(inner.this) + conjuncts(inner.expression)
    return [inner]


def regrouped(tree: Node) -> Node:
    """The tree with its operators grouped as SQL does: INTERSECT before the other set operators,
    which go from the left, and AND before OR.

    sqlglot groups a chain of set operators from the right, and one of AND and OR from the left,
    which it writes back as it was."""
    for part in list(tree.args.values()):
        for child in part if isinstance(part, list) else [part]:
            if isinstance(child, Node):
                new = regrouped(child)
                if new is not child:
                    child.replace(new)
    if isinstance(tree, exp.Connector) and not isinstance(tree.parent, exp.Connector):
        return of_conditions(tree)
    if not isinstance(tree, SETS) or isinstance(tree.parent, SETS) and tree.arg_key == "expression":
        return tree
    return intersect_first(tree)


def intersect_first(tree: Node) -> Node:
    """A chain of set operators as SQL groups it: INTERSECT before the others, these from the
    left."""
    operands, kinds = chain(tree)
    at = 0
    while at < len(kinds):
        if kinds[at][0] is exp.Intersect:
            operands[at : at + 2] = [combined(kinds[at], operands[at], operands[at + 1])]
            del kinds[at]
        else:
            at += 1
    made = operands[0]
    for kind, operand in zip(kinds, operands[1:]):
        made = combined(kind, made, operand)
    return made


# A set operator, and whether equal rows are one, as without ALL.
Operator = tuple[type[Node], bool]


def chain(tree: Node) -> tuple[list[Node], list[Operator]]:
    operands: list[Node] = []
    kinds: list[Operator] = []
    while isinstance(tree, SETS):
        operands.append(tree.this)
        kinds.append((type(tree), tree.args.get("distinct") is not False))
        tree = tree.expression
    return [operand.copy() for operand in [*operands, tree]], kinds


def combined(operator: Operator, left: Node, right: Node) -> Node:
    """Two queries by a set operator, which themselves stand in parentheses if they are such."""
    parts = [
        exp.Subquery(this=part.copy()) if isinstance(part, SETS) else part.copy()
        for part in (left, right)
    ]
    kind, is_distinct = operator
    return kind(this=parts[0], distinct=is_distinct, expression=parts[1])


def of_conditions(tree: Node) -> Node:
    """A chain of AND and OR, regrouped where an AND stands behind an OR."""
    operands: list[Node] = []
    kinds: list[type[Node]] = []
    at = tree
    while isinstance(at, exp.Connector):
        operands.append(at.expression)
        kinds.append(type(at))
        at = at.this
    operands, kinds = [at, *reversed(operands)], kinds[::-1]
    if exp.Or not in kinds or exp.And not in kinds[kinds.index(exp.Or) :]:
        return tree
    sums = [operands[0].copy()]
    for kind, operand in zip(kinds, operands[1:]):
        if kind is exp.And:
            sums[-1] = exp.And(this=sums[-1], expression=operand.copy())
        else:
            sums.append(operand.copy())
    made = sums[0]
    for operand in sums[1:]:
        made = exp.Or(this=made, expression=operand)
    return made
