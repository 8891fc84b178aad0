"""A column of SELECT dropped, two exchanged, one added, or another one.

Students show too much or too little, or the columns in the order of the table.
"""
from __future__ import annotations

from collections.abc import Iterator

from sqlglot import exp

from classroom.edits.change import Change, Kind
from classroom.edits.query import Query
from classroom.sql.scopes import column, is_star
from classroom.sql.spans import Span
from classroom.sql.tree import Node, written


def changes(node: Node, query: Query) -> Iterator[Change]:
    if not isinstance(node, exp.Select) or len(node.expressions) < 2:
        return
    items = list(node.expressions)
    for at, item in enumerate(items):
        yield selecting(
            node,
            query,
            f"{written(item)} dropped from SELECT",
            3,
            items[:at] + items[at + 1 :],
            item,
        )
    for at, item in enumerate(items):
        for other in range(at + 1, len(items)):
            exchanged = list(items)
            exchanged[at], exchanged[other] = items[other], item
            yield selecting(
                node, query, f"{written(item)} and {written(items[other])} exchanged", 3, exchanged
            )


def added(node: Node, query: Query) -> Iterator[Change]:
    """A column at hand more, or in the place of one of its kind."""
    if (
        not isinstance(node, exp.Select)
        or isinstance(node.parent, exp.Exists)
        or any(map(is_star, node.expressions))
    ):
        return
    items: list[Node | str] = list(node.expressions)
    columns = [
        (column(source, name), kind)
        for source, of in query.scopes.sources(node).items()
        if source
        for name, kind in of.items()
    ]
    for at, item in enumerate(node.expressions):
        inner = item.this if isinstance(item, exp.Alias) else item
        kind = query.scopes.kind(inner) if isinstance(inner, exp.Column) else None
        for text, of in columns:
            if kind and of == kind:
                other = [*items[:at], text, *items[at + 1 :]]
                yield selecting(
                    node, query, f"{text} for {written(item)} in SELECT", 3, other, item
                )
    for text, _ in columns:
        for at in range(len(items) + 1):
            yield selecting(
                node, query, f"{text} added to SELECT", 4, [*items[:at], text, *items[at:]]
            )


def selecting(
    select: Node,
    query: Query,
    mistake: str,
    cost: int,
    items: list[Node | str] | list[Node],
    shown: Node | None = None,
) -> Change:
    begin, end = query.span(select.expressions[0]).begin, query.span(select.expressions[-1]).end
    texts = [item if isinstance(item, str) else query.source(item) for item in items]
    return Change(
        mistake,
        Kind.SELECT,
        cost,
        Span(begin, end),
        ", ".join(texts),
        query.span(shown) if shown else Span(begin, end),
    )
