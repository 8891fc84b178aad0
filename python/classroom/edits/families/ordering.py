"""ASC for DESC and back, an expression of ORDER BY dropped, exchanged or added, ORDER BY itself
added, and LIMIT one higher or lower.

Students take the wrong end of a list, leave open which of equal ones come first, or forget that a
table has no order. """
from __future__ import annotations

from collections.abc import Iterator

from sqlglot import exp

from classroom.edits.change import Change, Kind
from classroom.edits.query import Query
from classroom.sql.scopes import is_star
from classroom.sql.spans import Span
from classroom.sql.tree import Node

MOST_SHOWN = 6  # columns by which one may order


def limited(node: Node, query: Query) -> Iterator[Change]:
    """Where a LIMIT makes other rows of another order."""
    if isinstance(node, exp.Order) and node.parent is not None and node.parent.args.get("limit"):
        yield from of_order(node, query)
    if (
        isinstance(node, exp.Limit)
        and isinstance(node.expression, exp.Literal)
        and node.expression.this.isdigit()
    ):
        count = int(node.expression.this)
        for other in (count + 1, count - 1):
            if other > 0:
                yield query.instead(
                    node.expression, f"LIMIT {other} for {count}", Kind.ORDER, 2, str(other)
                )


def changes(node: Node, query: Query) -> Iterator[Change]:
    """Where the order itself counts."""
    if isinstance(node, exp.Order) and isinstance(node.parent, (exp.Select, exp.Union)):
        yield from of_order(node, query)


def of_order(node: Node, query: Query) -> Iterator[Change]:
    items = [query.source(item) for item in node.expressions]
    begin, span = query.span(node.expressions[0]).begin, query.span(node)
    for at, item in enumerate(node.expressions):
        if isinstance(item, exp.Ordered):
            value = query.source(item.this)
            words, text = (
                ("ASC for DESC", value)
                if item.args.get("desc")
                else ("DESC for ASC", f"{value} DESC")
            )
            yield Change(
                f"{words} of {value}",
                Kind.ORDER,
                2,
                Span(begin, span.end),
                ", ".join([*items[:at], text, *items[at + 1 :]]),
                span,
            )
        if len(items) > 1:
            yield Change(
                f"ORDER BY without {items[at]}",
                Kind.ORDER,
                2,
                Span(begin, span.end),
                ", ".join(items[:at] + items[at + 1 :]),
                span,
            )


def added(node: Node, query: Query) -> Iterator[Change]:
    """ORDER BY of one or two of the columns that are shown, where there is none; and one of them
    for another, before or behind what is there."""
    if node is not query.tree or not isinstance(node, (exp.Select, exp.Union)):
        return
    first = node if isinstance(node, exp.Select) else next(node.find_all(exp.Select))
    shown = [str(at) for at, one in enumerate(first.expressions, 1) if not is_star(one)][
        :MOST_SHOWN
    ]
    keys = [f"{at}{way}" for at in shown for way in ("", " DESC")]
    order, end = node.args.get("order"), query.span(node).end
    if order is None:
        place = Span(begin_of_end(query, node), end)
        if node.args.get("limit") or node.args.get("offset"):
            return
        for text in (*keys, *pairs(keys)):
            yield Change(
                "ORDER BY added",
                Kind.ORDER,
                2 + text.count(","),
                Span(end, end),
                f" ORDER BY {text}",
                place,
            )
        return
    items = [query.source(item) for item in order.expressions]
    begin, span = query.span(order.expressions[0]).begin, query.span(order)
    for key in keys:
        for text in (
            *([key] if len(items) == 1 else []),
            ", ".join([*items, key]),
            ", ".join([key, *items]),
        ):
            yield Change(
                "ORDER BY of other columns", Kind.ORDER, 3, Span(begin, span.end), text, span
            )


def pairs(keys: list[str]) -> list[str]:
    return [
        f"{one}, {other}" for one in keys for other in keys if one.split()[0] != other.split()[0]
    ]


def begin_of_end(query: Query, node: Node) -> int:
    """Where the last word of a query begins, behind which something is missing."""
    span = query.span(node)
    return span.begin + max(query.text[span.begin : span.end].rstrip().rfind(" ") + 1, 0)
