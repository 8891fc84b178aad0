"""Queries as trees, and how `ratest`, SQLite and PostgreSQL write them."""
from __future__ import annotations

from dataclasses import dataclass
from typing import Literal, Optional, Union

Kind = Literal["int", "text"]


def quoted(name: str) -> str:
    plain = (
        name.isascii()
        and name.replace("_", "a").isalnum()
        and name[0].isalpha()
        and name == name.lower()
    )
    return name if plain else '"' + name.replace('"', '""') + '"'


@dataclass(frozen=True)
class Col:
    # The source's name, or None where the column is named alone.
    source: Optional[str]
    name: str


@dataclass(frozen=True)
class Const:
    value: Union[int, str, None]


@dataclass(frozen=True)
class Arith:
    sign: Literal["+", "-", "*"]
    left: Expression
    right: Expression


@dataclass(frozen=True)
class Negative:
    of: Expression


Expression = Union[Col, Const, Arith, Negative]


@dataclass(frozen=True)
class Compare:
    sign: str
    left: Expression
    right: Expression


@dataclass(frozen=True)
class IsNull:
    of: Expression
    negated: bool


@dataclass(frozen=True)
class InQuery:
    of: Expression
    negated: bool
    query: Query


@dataclass(frozen=True)
class InList:
    of: Expression
    negated: bool
    members: tuple[Expression, ...]


@dataclass(frozen=True)
class Between:
    of: Expression
    negated: bool
    low: Expression
    high: Expression


@dataclass(frozen=True)
class Exists:
    query: Query


@dataclass(frozen=True)
class Joined:
    word: Literal["AND", "OR"]
    parts: tuple[Condition, ...]


@dataclass(frozen=True)
class Not:
    of: Condition


Condition = Union[Compare, IsNull, InQuery, InList, Between, Exists, Joined, Not]


@dataclass(frozen=True)
class Base:
    """A table by its name, or a derived table, under an alias."""

    of: Union[str, Query]
    alias: str


@dataclass(frozen=True)
class Join:
    # None is CROSS JOIN.
    base: Base
    on: Optional[Condition]


@dataclass(frozen=True)
class Source:
    head: Base
    joins: tuple[Join, ...]


@dataclass(frozen=True)
class Select:
    # None is the star.
    items: Optional[tuple[Expression, ...]]
    sources: tuple[Source, ...]
    where: Optional[Condition]
    # The names and kinds of what comes out.
    columns: tuple[tuple[str, Kind], ...]


@dataclass(frozen=True)
class SetOperation:
    word: Literal["UNION", "EXCEPT", "INTERSECT"]
    left: Query
    right: Query


Query = Union[Select, SetOperation]


def columns_of(query: Query) -> tuple[tuple[str, Kind], ...]:
    """A set operator has the names of its first operand."""
    while isinstance(query, SetOperation):
        query = query.left
    return query.columns


Node = Union[Query, Source, Join, Base, Condition, Expression]


@dataclass(frozen=True)
class Writer:
    """Writes queries for a program. Parentheses stand where the grammar needs them, and nowhere
    else, so that the readers' precedence is compared too; SQLite, which has none around an operand
    of a set operator, gets derived tables there."""

    dialect: Literal["ratest", "sqlite", "postgres"]
    # Whether columns stand without their source, as in CHECK.
    plain_names: bool = False

    def query(self, query: Query) -> str:
        if isinstance(query, Select):
            return self.select(query)
        if self.dialect == "sqlite":
            return (
                f"SELECT * FROM ({self.query(query.left)}) {query.word} SELECT * FROM"
                f" ({self.query(query.right)})"
            )
        tight = query.word == "INTERSECT"
        left = self.query(query.left)
        if tight and isinstance(query.left, SetOperation) and query.left.word != "INTERSECT":
            left = f"({left})"
        right = self.query(query.right)
        # From the left, and INTERSECT before the others.
        if isinstance(query.right, SetOperation) and (tight or query.right.word != "INTERSECT"):
            right = f"({right})"
        return f"{left} {query.word} {right}"

    def select(self, select: Select) -> str:
        items = (
            "*"
            if select.items is None
            else ", ".join(
                self.item(item, name) for item, (name, _) in zip(select.items, select.columns)
            )
        )
        text = f"SELECT DISTINCT {items} FROM " + ", ".join(
            self.source(source) for source in select.sources
        )
        return text + (f" WHERE {self.condition(select.where)}" if select.where else "")

    def item(self, item: Expression, name: str) -> str:
        text = self.expression(item)
        return text if isinstance(item, Col) and item.name == name else f"{text} AS {quoted(name)}"

    def source(self, source: Source) -> str:
        text = self.base(source.head)
        for join in source.joins:
            text += (
                f" CROSS JOIN {self.base(join.base)}"
                if join.on is None
                else (f" JOIN {self.base(join.base)} ON {self.condition(join.on)}")
            )
        return text

    def base(self, base: Base) -> str:
        of = quoted(base.of) if isinstance(base.of, str) else f"({self.query(base.of)})"
        return f"{of} AS {quoted(base.alias)}"

    def condition(self, condition: Condition, within: str = "") -> str:
        """`within` is the word around this condition: AND, OR or NOT."""
        if isinstance(condition, Joined):
            text = f" {condition.word} ".join(
                self.condition(part, condition.word) for part in condition.parts
            )
            loose = (
                within == "NOT"
                or (within == "AND" and condition.word == "OR")
                or within == condition.word
            )
            return f"({text})" if loose else text
        if isinstance(condition, Not):
            return f"NOT {self.condition(condition.of, 'NOT')}"
        if isinstance(condition, Exists):
            return f"EXISTS ({self.query(condition.query)})"
        if isinstance(condition, Compare):
            return f"{self.expression(condition.left)} {condition.sign} {self.expression(condition.right)}"
        word = "NOT " if condition.negated else ""
        of = self.expression(condition.of)
        if isinstance(condition, IsNull):
            return f"{of} IS {word}NULL"
        if isinstance(condition, InQuery):
            return f"{of} {word}IN ({self.query(condition.query)})"
        if isinstance(condition, InList):
            return (
                f"{of} {word}IN ("
                + ", ".join(self.expression(member) for member in condition.members)
                + ")"
            )
        return (
            f"{of} {word}BETWEEN {self.expression(condition.low)} AND"
            f" {self.expression(condition.high)}"
        )

    def expression(self, expression: Expression, within: str = "") -> str:
        if isinstance(expression, Col):
            name = quoted(expression.name)
            return (
                name
                if expression.source is None or self.plain_names
                else f"{quoted(expression.source)}.{name}"
            )
        if isinstance(expression, Const):
            value = expression.value
            if value is None:
                return "NULL"
            if isinstance(value, str):
                return "'" + value.replace("'", "''") + "'"
            return f"({value})" if value < 0 and within else str(value)
        if isinstance(expression, Negative):
            return f"(- {self.expression(expression.of, '-1')})"
        left = self.expression(expression.left, expression.sign)
        right = self.expression(expression.right, expression.sign + "r")
        text = f"{left} {expression.sign} {right}"
        is_tight = expression.sign == "*" and within in ("+", "-", "+r", "-r", "*", "")
        is_first = expression.sign != "*" and within in ("", "+", "-")
        return text if is_tight or is_first else f"({text})"
