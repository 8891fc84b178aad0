"""HAVING dropped, WHERE for HAVING, and a column of GROUP BY dropped or another one.

Students choose rows where they mean groups, forget that only some groups are asked for, and group
by what is shown instead of what a group is. """
from __future__ import annotations

from collections.abc import Iterator

from sqlglot import exp

from classroom.edits.change import Change, Kind
from classroom.edits.families.aggregates import WORDS
from classroom.edits.query import Query
from classroom.sql.scopes import column
from classroom.sql.spans import Span
from classroom.sql.tree import COMPARISONS, Node, bare


def changes(node: Node, query: Query) -> Iterator[Change]:
    if isinstance(node, exp.Having):
        span = query.span(node)
        yield Change(
            "HAVING dropped",
            Kind.HAVING,
            2,
            Span(len(query.text[: span.begin].rstrip()), span.end),
            "",
            span,
        )
        yield from as_where(node, query)
    if isinstance(node, exp.Group) and node.expressions:
        yield from columns(node, query)


def as_where(node: Node, query: Query) -> Iterator[Change]:
    """A comparison of an aggregate's column as one of a row."""
    select, condition = node.parent, bare(node.this)
    if (
        not isinstance(select, exp.Select)
        or not isinstance(condition, COMPARISONS)
        or not select.args.get("group")
    ):
        return
    aggregate = bare(condition.this)
    if (
        type(aggregate) not in WORDS
        or isinstance(aggregate.this, (exp.Star, exp.Distinct))
        or isinstance(aggregate, exp.Count)
    ):
        return
    begin, end = query.span(condition).begin, query.span(condition).end
    inner = query.span(condition.this)
    test = f"{query.source(aggregate.this)}{query.text[inner.end:end]}"
    assert begin == inner.begin
    where, group = select.args.get("where"), query.span(select.args["group"])
    behind = (
        query.span(where or select.args["from"]).end
        if where
        else len(query.text[: group.begin].rstrip())
    )
    word = "AND" if where else "WHERE"
    yield Change(
        "WHERE for HAVING",
        Kind.HAVING,
        3,
        Span(behind, query.span(node).end),
        f" {word} {test} {query.text[group.begin:group.end]}",
        query.span(node),
    )


def columns(node: Node, query: Query) -> Iterator[Change]:
    items = [query.source(item) for item in node.expressions]
    span = query.span(node)
    begin = query.span(node.expressions[0]).begin
    for at, item in enumerate(node.expressions):
        rest = items[:at] + items[at + 1 :]
        if rest:
            yield Change(
                f"GROUP BY without {items[at]}",
                Kind.GROUP,
                2,
                Span(begin, span.end),
                ", ".join(rest),
                span,
            )
        if isinstance(item, exp.Column):
            table, known = query.scopes.source_of(item)
            for name in known:
                other = column(table if item.args.get("table") else "", name)
                if other.lower() != items[at].lower():
                    yield Change(
                        f"GROUP BY {other} for {items[at]}",
                        Kind.GROUP,
                        3,
                        Span(begin, span.end),
                        ", ".join([*items[:at], other, *items[at + 1 :]]),
                        span,
                    )
