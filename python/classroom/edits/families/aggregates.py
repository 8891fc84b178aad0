"""COUNT(*) for COUNT of a column, DISTINCT inside of an aggregate added and dropped, and SUM, AVG,
MIN and MAX for one another.

Students count rows where they mean values: so after an outer join nothing is counted once. They
forget that a join brings a value more than once, take DISTINCT for a remedy where equal values
count, and a sum for an average. """
from __future__ import annotations

from collections.abc import Iterator

from sqlglot import exp

from classroom.edits.change import Change, Kind
from classroom.edits.query import Query
from classroom.sql.scopes import column
from classroom.sql.tree import Node

WORDS: dict[type[Node], str] = {
    exp.Sum: "SUM",
    exp.Avg: "AVG",
    exp.Min: "MIN",
    exp.Max: "MAX",
    exp.Count: "COUNT",
}
INSTEAD: dict[type[Node], type[Node]] = {
    exp.Sum: exp.Avg,
    exp.Avg: exp.Sum,
    exp.Min: exp.Max,
    exp.Max: exp.Min,
}


def changes(node: Node, query: Query) -> Iterator[Change]:
    word = WORDS.get(type(node))
    if word is None or node.this is None:
        return
    inner = node.this
    if isinstance(inner, exp.Distinct):
        values = ", ".join(query.source(value) for value in inner.expressions)
        yield query.instead(
            node, f"DISTINCT in {word} dropped", Kind.AGGREGATE, 2, f"{word}({values})"
        )
    elif not isinstance(inner, exp.Star):
        value = query.source(inner)
        if isinstance(node, exp.Count):
            yield query.instead(node, f"COUNT(*) for COUNT({value})", Kind.AGGREGATE, 1, "COUNT(*)")
        if not isinstance(node, (exp.Min, exp.Max)):
            yield query.instead(
                node, f"DISTINCT in {word} added", Kind.AGGREGATE, 2, f"{word}(DISTINCT {value})"
            )
        if type(node) in INSTEAD:
            other = WORDS[INSTEAD[type(node)]]
            yield query.instead(node, f"{other} for {word}", Kind.AGGREGATE, 2, f"{other}({value})")


def counted(node: Node, query: Query) -> Iterator[Change]:
    """COUNT of a column at hand for COUNT(*)."""
    if not isinstance(node, exp.Count) or not isinstance(node.this, exp.Star):
        return
    for source, columns in (
        query.scopes.visible(node)[0].items() if query.scopes.visible(node) else []
    ):
        for name in columns if source else []:
            text = f"COUNT({column(source, name)})"
            yield query.instead(node, f"{text} for COUNT(*)", Kind.AGGREGATE, 2, text)
