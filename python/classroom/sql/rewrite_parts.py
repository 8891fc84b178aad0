"""What rewriting stands on: trees that are read from texts of SQLite, and what is known of them."""
from __future__ import annotations

from collections.abc import Iterator, Mapping
from typing import Any

import sqlglot
from sqlglot import exp

from classroom.sql.tree import SETS, Node, bare

# The declared type of each column of each table, in capitals; the names in small letters.
Columns = Mapping[str, Mapping[str, str]]
QUERIES = (exp.Select, exp.Values, *SETS)
MOST = 60_000  # characters of a rewritten text


class Cannot(Exception):
    """There is no rewriting that is the same for certain."""


class Names:
    """Names that a query doesn't have."""

    def __init__(self, text: str) -> None:
        self.text, self.count = text.lower(), 0

    def fresh(self, letter: str) -> str:
        self.count += 1
        name = f"_{letter}{self.count}"
        return name if name not in self.text else self.fresh(letter)


def sql(node: Any) -> str:
    text = str(node.sql("sqlite", comments=False))
    if len(text) > MOST:
        raise Cannot("a long text")
    return text


def query(text: str) -> Node:
    tree: Node = sqlglot.parse_one(text, read="sqlite")
    return tree


def value(text: str) -> Node:
    node: Node = query(f"SELECT {text}").expressions[0]
    return node


def inside(text: str) -> Node:
    """A value that stands in parentheses, so that what is around it doesn't matter."""
    return exp.Paren(this=value(text))


def operand(node: Any) -> str:
    """A value as it can stand on one side of an operator."""
    if isinstance(node, (exp.Column, exp.Literal, exp.Paren, exp.Func, exp.Anonymous)):
        return sql(node)
    return f"({sql(node)})"


def inner(node: Any) -> Any:
    """What stands in parentheses that have no name."""
    while isinstance(node, (exp.Subquery, exp.Paren)) and not node.args.get("alias"):
        node = node.this
    return node


def width(of: Any) -> int | None:
    """How many columns a query has; None where that depends on its tables."""
    of = inner(of)
    while isinstance(of, SETS):
        of = inner(of.this)
    if isinstance(of, exp.Values):
        first = of.expressions[0]
        return len(first.expressions) if isinstance(first, exp.Tuple) else 1
    if any(is_star(one) for one in of.expressions):
        return None
    return len(of.expressions)


def is_star(node: Any) -> bool:
    return isinstance(node, exp.Star) or (
        isinstance(node, exp.Column) and isinstance(node.this, exp.Star)
    )


def named(of: Any, names: list[str]) -> str:
    """A query in parentheses, whose columns have these names."""
    of = inner(of)
    count = width(of)
    if count is not None and count != len(names):
        raise Cannot("another number of columns")
    nulls = ", ".join(f"NULL AS {name}" for name in names)
    return f"(SELECT {nulls} WHERE 0 UNION ALL SELECT * FROM ({sql(of)}))"


def above(node: Any) -> Iterator[Any]:
    while node is not None:
        yield node
        node = node.parent


def is_aggregate(node: Any) -> bool:
    return isinstance(node, exp.AggFunc)


def has_aggregate(nodes: list[Any]) -> bool:
    """Whether one of the values is an aggregate's of their own SELECT."""
    return any(
        not isinstance(found.parent, exp.Window)
        and found.find_ancestor(exp.Select) is node.find_ancestor(exp.Select)
        for node in nodes
        for found in node.find_all(exp.AggFunc)
    )


def is_date(node: Any) -> bool:
    """Whether it is a day, by how it is written."""
    node = bare(node)
    if isinstance(node, exp.Cast):
        return str(node.args["to"].this.name) == "DATE"
    return isinstance(node, exp.Anonymous) and str(node.this).upper() == "DATE"
