"""Queries with LIMIT, windows and aggregates over two tables, each with all answers that SQL allows:
whatever SQL leaves open comes in every order.

Rows that an ORDER BY doesn't part come in all orders, by themselves in each query, so that those of
an engine's sorter are among them. """
from __future__ import annotations

import operator
from collections import Counter
from dataclasses import dataclass, field
from fractions import Fraction
from itertools import groupby, permutations, product
from typing import Any, Callable, Iterator, Literal, Optional, Sequence, Union

Dialect = Literal["sqlite", "postgres"]
Unit = dict[str, Any]  # the values of a row by the names of its columns
Tables = dict[str, list[Unit]]
Bag = frozenset[tuple[tuple[Any, ...], int]]
# The columns of the tables, and which of them are numbers.
COLUMNS = {"t": ("t.id", "t.a", "t.s"), "u": ("u.k", "u.t", "u.b")}
NUMBERS = frozenset({"t.id", "t.a", "u.k", "u.t", "u.b"})
FROM = {
    "t": "t",
    "u": "u",
    "join": "t JOIN u ON u.t = t.id",
    "left": "t LEFT JOIN u ON u.t = t.id",
    "cross": "t, u",
}
MOST_ORDERS = 3000
SIGNS: dict[str, Callable[[Any, Any], bool]] = {
    "=": operator.eq,
    "<>": operator.ne,
    "<": operator.lt,
    ">=": operator.ge,
}
NUMBERED = ("ROW_NUMBER", "RANK", "DENSE_RANK", "NTILE")
OF_COLUMN = ("LAG", "LEAD", "FIRST_VALUE", "LAST_VALUE", "SUM", "COUNT", "SUM ROWS", "MIN ROWS")


class TooMany(Exception):
    """So many orders that they are not all gone through."""


@dataclass(frozen=True)
class Key:
    column: str
    is_down: bool = False

    def sql(self) -> str:
        return self.column + (" DESC" if self.is_down else "")


@dataclass(frozen=True)
class Where:
    column: str
    sign: str  # of SIGNS, "NULL", "NOT NULL" or "MAX"
    value: int = 0

    def sql(self) -> str:
        if self.sign in ("NULL", "NOT NULL"):
            return f"{self.column} IS {self.sign}"
        if self.sign == "MAX":
            table, name = self.column.split(".")
            return f"{self.column} = (SELECT MAX({name}) FROM {table})"
        return f"{self.column} {self.sign} {self.value}"

    def holds(self, unit: Unit, tables: Tables) -> bool:
        value = unit[self.column]
        if self.sign in ("NULL", "NOT NULL"):
            return (value is None) == (self.sign == "NULL")
        wanted: Any = self.value
        if self.sign == "MAX":
            rows = tables[self.column.split(".")[0]]
            wanted = of_values("MAX", [row[self.column] for row in rows])
        if value is None or wanted is None:
            return False
        return SIGNS["=" if self.sign == "MAX" else self.sign](value, wanted)


@dataclass(frozen=True)
class Aggregate:
    name: str  # "COUNT(*)", a function of numbers, or "JOIN" of texts
    column: str = ""
    key: Optional[Key] = None  # the order in which texts are joined, in PostgreSQL alone

    def sql(self, dialect: Dialect) -> str:
        if self.name == "COUNT(*)":
            return self.name
        if self.name != "JOIN":
            return f"{self.name}({self.column})"
        if dialect == "sqlite":
            return f"GROUP_CONCAT({self.column})"
        order = f" ORDER BY {self.key.sql()}" if self.key else ""
        return f"STRING_AGG({self.column}, ','{order})"

    def values(self, units: list[Unit], nulls_first: bool) -> set[Any]:
        """All that it may be over these rows."""
        if self.name == "COUNT(*)":
            return {len(units)}
        if self.name != "JOIN":
            return {of_values(self.name, [unit[self.column] for unit in units])}
        keys = (self.key,) if self.key else ()
        made = set()
        for order in orders(units, keys, nulls_first):
            texts = [unit[self.column] for unit in order if unit[self.column] is not None]
            made.add(",".join(texts) if texts else None)
        return made


@dataclass(frozen=True)
class Window:
    name: str  # of NUMBERED or OF_COLUMN
    column: str = ""
    partition: str = ""
    keys: tuple[Key, ...] = ()

    def sql(self) -> str:
        name, _, frame = self.name.partition(" ")
        argument = {"NTILE": "2"}.get(name, "" if name in NUMBERED else self.column)
        parts = [f"PARTITION BY {self.partition}"] if self.partition else []
        if self.keys:
            parts.append("ORDER BY " + ", ".join(key.sql() for key in self.keys))
        if frame:
            parts.append("ROWS UNBOUNDED PRECEDING")
        return f"{name}({argument}) OVER ({' '.join(parts)})"

    def of_orders(self, units: list[Unit], nulls_first: bool) -> Iterator[list[tuple[Unit, Any]]]:
        """The rows with what the window has for each, for all orders of the rows."""

        def place(unit: Unit) -> Any:
            return sortable(unit[self.partition], True) if self.partition else 0

        partitions = [list(of) for _, of in groupby(sorted(units, key=place), key=place)]
        ways = [
            [self.of_order(order, nulls_first) for order in orders(of, self.keys, nulls_first)]
            for of in partitions
        ]
        for made in limited(ways):
            yield [pair for part in made for pair in part]

    def of_order(self, order: list[Unit], nulls_first: bool) -> list[tuple[Unit, Any]]:
        ranks = [rank_of(unit, self.keys, nulls_first) for unit in order]
        made: list[tuple[Unit, Any]] = []
        for at, unit in enumerate(order):
            first = ranks.index(ranks[at])
            end = first + ranks.count(ranks[at])  # of the row's peers
            values = [row[self.column] for row in order] if self.column else []
            value: Any
            if self.name == "ROW_NUMBER":
                value = at + 1
            elif self.name == "RANK":
                value = first + 1
            elif self.name == "DENSE_RANK":
                value = len({tuple(rank) for rank in ranks[:end]})
            elif self.name == "NTILE":
                value = 1 if at < (len(order) + 1) // 2 else 2
            elif self.name in ("LAG", "LEAD"):
                other = at + (1 if self.name == "LEAD" else -1)
                value = values[other] if 0 <= other < len(order) else None
            elif self.name in ("FIRST_VALUE", "LAST_VALUE"):
                value = values[0 if self.name == "FIRST_VALUE" else end - 1]
            elif self.name.endswith("ROWS"):
                value = of_values(self.name.split()[0], values[: at + 1])
            else:
                value = of_values(self.name, values[:end])
            made.append((unit, value))
        return made


@dataclass(frozen=True)
class Query:
    """A SELECT; what it shows is named c1, c2 and so on."""

    source: Union[str, "Query"]  # of FROM, or a query that is named q
    shown: tuple[str, ...] = ()
    where: Optional[Where] = None
    is_grouped: bool = False
    group: tuple[str, ...] = ()
    aggregates: tuple[Aggregate, ...] = ()
    least: int = 0  # rows of a group, by HAVING
    window: Optional[Window] = None
    is_distinct: bool = False
    on: str = ""  # of DISTINCT ON, in PostgreSQL alone
    keys: tuple[Key, ...] = field(default=())  # of columns, or of c1, c2 where it is grouped
    limit: Optional[int] = None
    offset: int = 0

    def width(self) -> int:
        return len(self.shown) + len(self.aggregates) + bool(self.window)

    def sql(self, dialect: Dialect) -> str:
        items = [*self.shown, *(of.sql(dialect) for of in self.aggregates)]
        items += [self.window.sql()] if self.window else []
        listed = ", ".join(f"{item} AS c{at}" for at, item in enumerate(items, 1))
        distinct = f"DISTINCT ON ({self.on}) " if self.on else "DISTINCT " * self.is_distinct
        source = self.source
        of = FROM[source] if isinstance(source, str) else f"({source.sql(dialect)}) AS q"
        parts = [f"SELECT {distinct}{listed} FROM {of}"]
        parts += [f"WHERE {self.where.sql()}"] if self.where else []
        parts += ["GROUP BY " + ", ".join(self.group)] if self.group else []
        parts += [f"HAVING COUNT(*) >= {self.least}"] if self.least else []
        parts += ["ORDER BY " + ", ".join(key.sql() for key in self.keys)] if self.keys else []
        parts += [f"LIMIT {self.limit}"] if self.limit is not None else []
        parts += [f"OFFSET {self.offset}"] if self.offset else []
        return " ".join(parts)

    def bags(self, tables: Tables, dialect: Dialect) -> set[Bag]:
        """All answers that SQL allows, each as a bag of rows."""
        nulls_first = dialect == "sqlite"
        made: set[Bag] = set()
        for units in self.sources(tables, dialect):
            kept = [unit for unit in units if not self.where or self.where.holds(unit, tables)]
            for rows in self.rows(kept, nulls_first):
                for cut in self.cuts(rows, nulls_first):
                    made.add(frozenset(Counter(cut).items()))
                    if len(made) > MOST_ORDERS:
                        raise TooMany
        return made

    def sources(self, tables: Tables, dialect: Dialect) -> Iterator[list[Unit]]:
        if not isinstance(self.source, str):
            for bag in self.source.bags(tables, dialect):
                lines = [line for line, count in bag for _ in range(count)]
                yield [{f"q.c{at}": of for at, of in enumerate(line, 1)} for line in lines]
            return
        first, second = tables["t"], tables["u"]
        if self.source in tables:
            yield tables[self.source]
        elif self.source == "cross":
            yield [{**one, **two} for one in first for two in second]
        else:
            joined = []
            for one in first:
                met = [two for two in second if two["u.t"] == one["t.id"]]
                if not met and self.source == "left":
                    met = [dict.fromkeys(COLUMNS["u"])]
                joined += [{**one, **two} for two in met]
            yield joined

    def rows(self, units: list[Unit], nulls_first: bool) -> Iterator[list[tuple[Unit, Any]]]:
        """What may come before it is cut: each row with the values by which it is ordered."""
        if self.is_grouped:
            yield from self.groups(units, nulls_first)
        elif self.window:
            for order in self.window.of_orders(units, nulls_first):
                yield [
                    (unit, (*(unit[name] for name in self.shown), value)) for unit, value in order
                ]
        else:
            yield [(unit, tuple(unit[name] for name in self.shown)) for unit in units]

    def groups(self, units: list[Unit], nulls_first: bool) -> Iterator[list[tuple[Unit, Any]]]:
        found: dict[tuple[Any, ...], list[Unit]] = {} if self.group else {(): []}
        for unit in units:
            found.setdefault(tuple(unit[name] for name in self.group), []).append(unit)
        kept = {key: of for key, of in found.items() if len(of) >= self.least}
        ways = []
        for key, of in kept.items():
            shown = tuple(key[self.group.index(name)] for name in self.shown)
            values = product(*(one.values(of, nulls_first) for one in self.aggregates))
            ways.append([(*shown, *some) for some in values])
        for lines in limited(ways):
            yield [({f"c{at}": of for at, of in enumerate(line, 1)}, line) for line in lines]

    def cuts(
        self, rows: list[tuple[Unit, Any]], nulls_first: bool
    ) -> Iterator[tuple[tuple[Any, ...], ...]]:
        """The rows that are left, as one order or another has them."""
        if self.is_distinct:
            rows = list({line: (unit, line) for unit, line in rows}.values())
        if self.limit is None and not self.offset and not self.on:
            yield tuple(line for _, line in rows)
            return
        units = [{**unit, "line": line} for unit, line in rows]
        end = None if self.limit is None else self.offset + self.limit
        for order in orders(units, self.keys, nulls_first):
            if self.on:
                firsts: dict[Any, Unit] = {}
                for unit in order:
                    firsts.setdefault(unit[self.on], unit)
                order = list(firsts.values())
            yield tuple(unit["line"] for unit in order[self.offset : end])


def orders(units: Sequence[Unit], keys: Sequence[Key], nulls_first: bool) -> Iterator[list[Unit]]:
    """All orders of rows that the keys allow."""

    def rank(unit: Unit) -> Any:
        return rank_of(unit, keys, nulls_first)

    runs = [list(of) for _, of in groupby(sorted(units, key=rank), key=rank)]
    count = 1
    for run in runs:
        for of in range(2, len(run) + 1):
            count *= of
    if count > MOST_ORDERS:
        raise TooMany
    for made in product(*(permutations(run) for run in runs)):
        yield [unit for run in made for unit in run]


def limited(ways: Sequence[Sequence[Any]]) -> Iterator[tuple[Any, ...]]:
    count = 1
    for way in ways:
        count *= len(way)
    if count > MOST_ORDERS:
        raise TooMany
    yield from product(*ways)


def rank_of(unit: Unit, keys: Sequence[Key], nulls_first: bool) -> list[Any]:
    """By what a row is sorted; NULL comes first or last where the order is up."""
    return [
        Down(sortable(unit[key.column], nulls_first))
        if key.is_down
        else sortable(unit[key.column], nulls_first)
        for key in keys
    ]


def sortable(value: Any, nulls_first: bool) -> tuple[bool, Any]:
    return (value is None) != nulls_first, 0 if value is None else value


@dataclass(frozen=True)
class Down:
    """A value that is sorted from high to low."""

    value: Any

    def __lt__(self, other: "Down") -> bool:
        return bool(other.value < self.value)


def of_values(name: str, values: Sequence[Any]) -> Any:
    """An aggregate of numbers; NULL counts for nothing."""
    there = [value for value in values if value is not None]
    if name == "COUNT":
        return len(there)
    if not there:
        return None
    if name == "AVG":
        return Fraction(sum(there), len(there))
    if name == "SUM":
        return sum(there)
    return min(there) if name == "MIN" else max(there)
