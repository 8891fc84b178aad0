"""One SELECT of a query in its parts, and other SELECTs made of them."""
from __future__ import annotations

from collections.abc import Iterable, Sequence

from sqlglot import exp

from classroom.edits.query import Query
from classroom.sql.scopes import is_star, name_in_from, name_of, sources
from classroom.sql.spans import Span
from classroom.sql.tree import Node, bare, conjuncts

OPPOSITE: dict[type[Node], str] = {
    exp.EQ: "<>",
    exp.NEQ: "=",
    exp.LT: ">=",
    exp.GTE: "<",
    exp.GT: "<=",
    exp.LTE: ">",
}


class Block:
    """A SELECT with FROM."""

    def __init__(self, select: Node, query: Query) -> None:
        self.select = select
        self.query = query
        self.sources = list(sources(select))
        self.joins = list(select.args.get("joins") or [])
        self.where: Node | None = select.args.get("where")
        self.conditions = conjuncts(self.where.this if self.where else None)

    @property
    def has_star(self) -> bool:
        return any(is_star(item) for item in self.select.expressions)

    @property
    def is_plain(self) -> bool:
        """Whether its tables are joined by conditions alone, and it is no list of groups."""
        return not any(
            join.side or join.args.get("natural") or join.args.get("using") for join in self.joins
        ) and not self.select.args.get("group")

    @property
    def all_conditions(self) -> list[Node]:
        """Those of WHERE, and then those of ON."""
        return [
            *self.conditions,
            *(part for join in self.joins for part in conjuncts(join.args.get("on"))),
        ]

    def names(self) -> list[str]:
        return [name_in_from(source) for source in self.sources]

    def shown_names(self) -> set[str]:
        """The tables that SELECT takes columns from."""
        return {
            self.query.scopes.source_of(column)[0] or name_of(column.args.get("table"))
            for item in self.select.expressions
            for column in item.find_all(exp.Column)
        }

    def mentions(self, condition: Node, name: str) -> bool:
        return any(
            self.query.scopes.source_of(column)[0] == name
            for column in condition.find_all(exp.Column)
        )

    def begin_text(self) -> Span:
        """FROM with its sources and joins."""
        return self.query.span(self.select.args["from"])

    def items(self) -> str:
        return ", ".join(self.query.qualified(item) for item in self.select.expressions)

    def from_text(self) -> str:
        """The sources and joins without the word FROM, each column with its table."""
        query, span = self.query, self.begin_text()
        first = query.span(self.sources[0]).begin
        pieces = [one for join in self.joins for one in query.qualifications(join, {})]
        made, at = [], first
        for begin, end, text in sorted(pieces):
            made += [query.text[at:begin], text]
            at = end
        return "".join([*made, query.text[at : span.end]])

    def written(self, tables: str, conditions: Iterable[str]) -> str:
        """The SELECT over other tables and conditions, each column with its table before it."""
        query, whole = self.query, self.query.span(self.select)
        first = query.span(self.select.expressions[0]).begin
        behind = query.span(self.where).end if self.where else self.begin_text().end
        parts = [query.text[whole.begin : first], self.items(), " FROM ", tables]
        where = " AND ".join(conditions)
        return "".join([*parts, f" WHERE {where}" if where else "", query.text[behind : whole.end]])

    def replaced(self, conditions: Sequence[str]) -> tuple[Span, str]:
        """WHERE of other conditions, and what it takes the place of; none of no conditions."""
        where = " AND ".join(conditions)
        if self.where:
            span = self.query.span(self.where)
            return span, f"WHERE {where}" if where else ""
        end = self.begin_text().end
        return Span(end, end), f" WHERE {where}" if where else ""

    def place(self) -> Span:
        """What is shown where a condition is missing: WHERE, or else FROM."""
        return self.query.span(self.where) if self.where else self.begin_text()

    def texts(self) -> list[str]:
        """The conditions of WHERE."""
        return [part(condition, self.query.source(condition)) for condition in self.conditions]

    def qualified(self, condition: Node) -> str:
        return part(condition, self.query.qualified(condition))

    def negated(self, condition: Node) -> str:
        """What holds for the rows for which a condition is false."""
        if isinstance(condition, exp.Not):
            inner = bare(condition.this)
            return part(inner, self.query.qualified(inner))
        text = self.query.qualified(condition)
        return f"NOT ({text})" if isinstance(condition, exp.Connector) else f"NOT {text}"

    def opposite(self, condition: Node) -> str:
        """As `negated`, a comparison by its sign."""
        sign = OPPOSITE.get(type(condition))
        if sign:
            return f"{self.query.qualified(condition.this)} {sign} {self.query.qualified(condition.expression)}"
        return self.negated(condition)


def part(condition: Node, text: str) -> str:
    """The text of a condition as one of an AND."""
    return f"({text})" if isinstance(condition, exp.Or) else text


def block_of(node: Node, query: Query) -> Block | None:
    return Block(node, query) if isinstance(node, exp.Select) and node.args.get("from") else None
