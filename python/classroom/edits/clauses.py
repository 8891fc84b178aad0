"""In which clause of which SELECT a place of a query stands."""
from __future__ import annotations

from dataclasses import dataclass

from sqlglot import exp

from classroom.edits.query import Query
from classroom.sql.spans import Span
from classroom.sql.tree import SETS, Node

WHERE, FROM, SELECT, SET, GROUP, HAVING, ORDER, WHOLE = (
    "WHERE",
    "FROM",
    "SELECT",
    "set operator",
    "GROUP BY",
    "HAVING",
    "ORDER BY",
    "query",
)
ORDINALS = (
    "first",
    "second",
    "third",
    "fourth",
    "fifth",
    "sixth",
    "seventh",
    "eighth",
    "ninth",
    "tenth",
)


@dataclass(frozen=True)
class Clause:
    """A clause of a SELECT, or a set operator."""

    name: str  # one of those above; WHOLE where the place is not in one
    number: int  # of the SELECT in the text, from 0
    depth: int  # how many SELECTs are around it


class Clauses:
    """Those of a query."""

    def __init__(self, query: Query) -> None:
        self.selects: list[tuple[Span, int, list[tuple[Span, str]]]] = []
        self.sets: list[Span] = []
        for node in query.nodes():
            if id(node) not in query.spans.of:
                continue
            if isinstance(node, exp.Select):
                self.selects.append((query.span(node), depth_of(node), list(parts(node, query))))
            elif isinstance(node, SETS):
                self.sets.append(query.span(node))
        self.selects.sort(key=lambda one: one[0])

    def of(self, place: Span) -> Clause:
        """The clause that has the whole place, of the innermost SELECT."""
        for number in range(len(self.selects) - 1, -1, -1):
            span, depth, clauses = self.selects[number]
            if contains(span, place):
                names = [name for one, name in clauses if contains(one, place)]
                return Clause(names[0] if names else WHOLE, number, depth)
        return Clause(SET if self.sets else WHOLE, 0, 0)

    def words(self, clause: Clause) -> str:
        """As "the inner query's WHERE"."""
        if clause.name == SET:
            return "the way the parts of the query are put together"
        what = "" if clause.name == WHOLE else clause.name
        depths = [depth for _, depth, _ in self.selects]
        if len(depths) == 1:
            return f"the {what}" if what else "the query"
        if sum((depth > 0) == (clause.depth > 0) for depth in depths) == 1:
            which = f"the {'inner' if clause.depth else 'outer'} query"
            return f"{which}'s {what}" if what else which
        which = (
            f"the {ORDINALS[clause.number]} SELECT" if clause.number < len(ORDINALS) else "a SELECT"
        )
        return f"the {what} of {which}" if what else which


def contains(outer: Span, inner: Span) -> bool:
    return outer.begin <= inner.begin and inner.end <= outer.end


def depth_of(select: Node) -> int:
    depth, at = 0, select.parent
    while at is not None:
        depth += isinstance(at, exp.Select)
        at = at.parent
    return depth


def parts(select: Node, query: Query) -> list[tuple[Span, str]]:
    found = []
    for key, name in (
        ("where", WHERE),
        ("from", FROM),
        ("group", GROUP),
        ("having", HAVING),
        ("order", ORDER),
    ):
        node = select.args.get(key)
        if node is not None and id(node) in query.spans.of:
            found.append((query.span(node), name))
    if select.expressions and all(id(item) in query.spans.of for item in select.expressions):
        begin, end = query.span(select.expressions[0]).begin, query.span(select.expressions[-1]).end
        found.append((Span(begin, end), SELECT))
    return found
