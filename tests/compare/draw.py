"""Random cases. Everything is drawn from one `random.Random`, so that a seed says which case it is,
and hypothesis can put a generator of its own in its place.

SQLite is kept away from what it does otherwise than the standard: no sum that could leave 64 bits,
no text compared with a number (`ratest` refuses it), no column in ON of a source outside of its
join, also where a source around has the same name, foreign keys to keys alone. PostgreSQL has no
type for an expression of NULLs alone, so none is drawn. """
from __future__ import annotations

from dataclasses import dataclass, field, replace
from math import log10
from random import Random
from typing import Literal, Optional, Sequence, TypeVar, Union

from .change import changed
from .model import Case, Column, ForeignKey, Row, Table, Value
from .query import (
    Arith,
    Base,
    Between,
    Col,
    Compare,
    Condition,
    Const,
    Exists,
    Expression,
    InList,
    InQuery,
    IsNull,
    Join,
    Joined,
    Kind,
    Negative,
    Not,
    Query,
    Select,
    SetOperation,
    Source,
    columns_of,
)

T = TypeVar("T")

KINDS: tuple[Kind, ...] = ("int", "int", "text")
WORDS: tuple[Literal["UNION", "EXCEPT", "INTERSECT"], ...] = ("UNION", "EXCEPT", "INTERSECT")
SUM_SIGNS: tuple[Literal["+", "-"], ...] = ("+", "-")
ARITHMETIC_SIGNS: tuple[Literal["+", "-", "*"], ...] = ("+", "-", "*")
SIGNS = ("=", "<>", "<", "<=", ">", ">=")
NUMBERS: tuple[int, ...] = (0, 1, 2, 3, -1)
WIDE_NUMBERS: tuple[int, ...] = NUMBERS + (2**63 - 1, -(2**63), 2**62, -(2**63) + 1)
TEXTS: tuple[str, ...] = (
    "a",
    "b",
    "A",
    "it's",
    "é",
    "☃😀",
    "a,b",
    'say "x"',
    " a",
    "NULL",
    "10",
    "9",
    "line\nend",
    "--",
)
COLUMN_NAMES = ("a", "b", "c", "d")
TABLE_NAMES = ("t", "u", "v", "Odd name", "größe")
ALIASES = ("x", "y", "z", "w", "p", "q", "r", "s", "g", "h", "j", "k", "l", "m", "n", "o")


@dataclass(frozen=True)
class Limits:
    """How large the cases are."""

    rows: int = 7
    tables: int = 3
    depth: int = 2
    sources: int = 3
    # Of how many values a column has most of its rows.
    values: int = 4
    # One case of so many has up to this number of rows, over queries that are simpler; 0 is none.
    large: int = 0
    large_rows: int = 2000


@dataclass(frozen=True)
class Visible:
    """A source that can be named, and those of its columns that its name alone makes out."""

    alias: str
    columns: tuple[tuple[str, Kind], ...]


@dataclass
class Draw:
    random: Random
    limits: Limits = field(default_factory=Limits)
    tables: list[Table] = field(default_factory=list)
    is_wide: bool = False

    def chance(self, part: float) -> bool:
        return self.random.random() < part

    def pick(self, among: Sequence[T]) -> T:
        return among[self.random.randrange(len(among))]

    def some(self, among: Sequence[T], most: int) -> list[T]:
        return self.random.sample(list(among), self.random.randint(1, min(most, len(among))))

    # Schemas and rows.

    def case(self) -> Case:
        if self.limits.large and self.chance(1 / self.limits.large):
            most = int(10 ** self.random.uniform(1, log10(self.limits.large_rows)))
            self.limits = replace(
                self.limits, rows=most, values=max(4, most // 4), depth=1, sources=2
            )
        self.is_wide = self.chance(0.2)
        self.tables = self.schema()
        rows = self.rows()
        first = self.query(self.depth(), [], None)
        second = self.second(first)
        return Case(self.tables, rows, first, second, self.is_wide)

    def depth(self) -> int:
        return min(self.limits.depth, self.pick((0, 0, 1, 1, 1, 2)))

    def schema(self) -> list[Table]:
        found = []
        for name in self.random.sample(TABLE_NAMES, self.random.randint(1, self.limits.tables)):
            columns = [
                Column(column, "int" if self.chance(0.65) else "text", self.chance(0.15))
                for column in COLUMN_NAMES[: self.random.randint(1, 3)]
            ]
            found.append(self.with_keys(Table(name, columns)))
        for table in found:
            while self.chance(0.35):
                self.add_foreign_key(table, found)
            while self.chance(0.2):
                self.tables = [table]
                table.checks.append(self.check(table))
        return found

    def with_keys(self, table: Table) -> Table:
        columns = [column.name for column in table.columns]
        if self.chance(0.5):
            table.primary_key = tuple(self.some(columns, 2))
        while self.chance(0.2):
            key = tuple(self.some(columns, 2))
            if set(key) not in [set(other) for other in table.keys()]:
                table.unique.append(key)
        return table

    def add_foreign_key(self, table: Table, among: list[Table]) -> None:
        other = self.pick(among)
        if not other.keys():
            return
        referenced = self.pick(other.keys())
        columns: list[str] = []
        for name in referenced:
            fitting = [
                column.name
                for column in table.columns
                if column.kind == other.kind_of(name) and column.name not in columns
            ]
            if not fitting:
                return
            columns.append(self.pick(fitting))
        table.foreign_keys.append(ForeignKey(tuple(columns), other.name, referenced))

    def check(self, table: Table) -> Condition:
        """The form that a CHECK may have: comparisons of columns and constants, with no parentheses
        inside."""
        columns = tuple((column.name, column.kind) for column in table.columns)
        parts = tuple(
            self.leaf([Visible("", columns)], arithmetic=False)
            for _ in range(self.random.randint(1, 2))
        )
        return parts[0] if len(parts) == 1 else Joined("AND" if self.chance(0.5) else "OR", parts)

    def value(self, column: Column) -> Value:
        if not column.not_null and self.chance(0.2) or self.chance(0.02):
            return None
        if column.kind == "text":
            return self.pick(TEXTS[: self.limits.values] if self.chance(0.8) else TEXTS)
        if self.is_wide and self.chance(0.3):
            return self.pick(WIDE_NUMBERS)
        return (
            self.pick(NUMBERS)
            if self.limits.values < 5
            else self.random.randint(-1, self.limits.values)
        )

    def rows(self) -> dict[str, list[Row]]:
        total = (
            self.random.randint(min(2, self.limits.rows), self.limits.rows)
            if self.chance(0.97)
            else 0
        )
        found: dict[str, list[Row]] = {table.name: [] for table in self.tables}
        for _ in range(total):
            table = self.pick(self.tables)
            rows = found[table.name]
            row = (
                self.pick(rows)
                if rows and self.chance(0.05)
                else tuple(self.value(c) for c in table.columns)
            )
            rows.append(row)
        return found

    # Queries. `outer` are the scopes around, the nearest one first; `kinds` what the columns have
    # to be.

    def query(
        self, depth: int, outer: list[list[Visible]], kinds: Optional[tuple[Kind, ...]]
    ) -> Query:
        if depth > 0 and self.chance(0.3):
            left = self.query(depth - 1, outer, kinds)
            wanted = tuple(kind for _, kind in columns_of(left))
            return SetOperation(self.pick(WORDS), left, self.query(depth - 1, outer, wanted))
        return self.select(depth, outer, kinds)

    def select(
        self, depth: int, outer: list[list[Visible]], kinds: Optional[tuple[Kind, ...]]
    ) -> Select:
        taken: list[str] = []
        closed: set[str] = set()
        own: list[Visible] = []
        everything: list[tuple[str, Kind]] = []
        sources = []
        for _ in range(1 if self.chance(0.6) else self.random.randint(1, self.limits.sources)):
            sources.append(self.source(depth, outer, taken, closed, own, everything))
        scopes = [own] + outer
        where = self.condition(depth, scopes) if self.chance(0.7) else None
        if kinds is None and self.chance(0.2):
            return Select(None, tuple(sources), where, tuple(everything))
        wanted = kinds or tuple(self.pick(KINDS) for _ in range(self.random.randint(1, 2)))
        items = tuple(self.expression(kind, scopes, null=False) for kind in wanted)
        named = tuple(
            (item.name if isinstance(item, Col) else f"c{at}", kind)
            for at, (item, kind) in enumerate(zip(items, wanted))
        )
        return Select(items, tuple(sources), where, named)

    def source(
        self,
        depth: int,
        outer: list[list[Visible]],
        taken: list[str],
        closed: set[str],
        own: list[Visible],
        everything: list[tuple[str, Kind]],
    ) -> Source:
        head, seen = self.base(depth, outer, taken, closed, everything)
        visible = [seen]
        joins = []
        while len(taken) < self.limits.sources and self.chance(0.25):
            base, seen = self.base(depth, outer, taken, closed, everything)
            visible.append(seen)
            # In ON, SQLite sees each source of FROM in place of one around that has its name.
            around = [[other for other in scope if other.alias not in taken] for scope in outer]
            closed |= {other.alias for scope in around for other in scope}
            on = (
                None
                if self.chance(0.15)
                else self.condition(min(depth, 1), [list(visible)] + around)
            )
            joins.append(Join(base, on))
        own += visible
        return Source(head, tuple(joins))

    def base(
        self,
        depth: int,
        outer: list[list[Visible]],
        taken: list[str],
        closed: set[str],
        everything: list[tuple[str, Kind]],
    ) -> tuple[Base, Visible]:
        # An alias may hide one of a scope around, where no ON before it spoke of that scope.
        alias = self.pick([name for name in ALIASES if name not in taken and name not in closed])
        taken.append(alias)
        of: Union[str, Query]
        if depth > 0 and self.chance(0.15):
            of = self.query(depth - 1, outer, None)
            columns = columns_of(of)
        else:
            table = self.pick(self.tables)
            of = table.name
            columns = tuple((column.name, column.kind) for column in table.columns)
        everything += columns
        names = [name for name, _ in columns]
        return Base(of, alias), Visible(
            alias, tuple(column for column in columns if names.count(column[0]) == 1)
        )

    # Conditions and expressions over scopes, the nearest one first.

    def condition(self, depth: int, scopes: list[list[Visible]], parts: int = 3) -> Condition:
        if parts > 1 and self.chance(0.4):
            members = tuple(
                self.condition(depth, scopes, parts - 1)
                for _ in range(2 if self.chance(0.7) else 3)
            )
            return Joined("AND" if self.chance(0.6) else "OR", members)
        if parts > 0 and self.chance(0.15):
            return Not(self.condition(depth, scopes, parts - 1))
        if depth > 0 and self.chance(0.35):
            return self.subquery(depth - 1, scopes)
        return self.leaf(scopes[0] if self.chance(0.7) else self.all_visible(scopes))

    def subquery(self, depth: int, scopes: list[list[Visible]]) -> Condition:
        if self.chance(0.5):
            return Exists(self.query(depth, scopes, None))
        kind = self.pick(KINDS)
        return InQuery(
            self.expression(kind, scopes), self.chance(0.5), self.query(depth, scopes, (kind,))
        )

    def all_visible(self, scopes: list[list[Visible]]) -> list[Visible]:
        """Those sources of all scopes that a nearer one of their name doesn't hide."""
        found: dict[str, Visible] = {}
        for scope in scopes:
            for visible in scope:
                found.setdefault(visible.alias, visible)
        return list(found.values())

    def leaf(self, visible: list[Visible], arithmetic: bool = True) -> Condition:
        kind = self.pick(KINDS)

        def side(null: bool = True) -> Expression:
            return self.over(kind, visible, null, arithmetic)

        def column() -> Expression:
            columns = [
                Col(source.alias, name)
                for source in visible
                for name, of in source.columns
                if of == kind
            ]
            return self.pick(columns) if columns and self.chance(0.85) else side(null=False)

        form = self.random.random()
        if form < 0.6:
            return Compare("=" if self.chance(0.4) else self.pick(SIGNS), column(), side())
        if form < 0.75:
            return IsNull(column(), self.chance(0.5))
        if form < 0.88:
            members = tuple(side() for _ in range(self.random.randint(1, 3)))
            return InList(column(), self.chance(0.4), members)
        return Between(column(), self.chance(0.3), side(), side())

    def expression(self, kind: Kind, scopes: list[list[Visible]], null: bool = True) -> Expression:
        return self.over(
            kind, scopes[0] if self.chance(0.8) else self.all_visible(scopes), null, True
        )

    def over(self, kind: Kind, visible: list[Visible], null: bool, arithmetic: bool) -> Expression:
        if kind == "int" and arithmetic and not self.is_wide and self.chance(0.15):
            return self.arithmetic(visible)
        if null and self.chance(0.04):
            return Const(None)
        columns = [
            Col(source.alias, name)
            for source in visible
            for name, of in source.columns
            if of == kind
        ]
        if columns and self.chance(0.75):
            return self.pick(columns)
        if kind == "text":
            return Const(
                self.pick(TEXTS[: self.limits.values])
                if self.chance(0.8)
                else self.pick(TEXTS + ("",))
            )
        return Const(self.pick(WIDE_NUMBERS if self.is_wide else NUMBERS))

    def arithmetic(self, visible: list[Visible]) -> Expression:
        left = self.over("int", visible, False, self.chance(0.3))
        if self.chance(0.2):
            return Negative(left)
        # A product of three columns may have more than 128 bits, which is refused.
        return Arith(
            self.pick(SUM_SIGNS if isinstance(left, Arith) else ARITHMETIC_SIGNS),
            left,
            self.over("int", visible, False, False),
        )

    # The second query: the first with one change, or another of the same columns.

    def second(self, first: Query) -> Query:
        if self.chance(0.65):
            return changed(first, self)
        return self.query(self.depth(), [], tuple(kind for _, kind in columns_of(first)))
