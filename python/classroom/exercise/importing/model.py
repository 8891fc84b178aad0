"""The tables of a database as its catalogue tells them, and what reads them."""
from __future__ import annotations

from collections.abc import Mapping, Sequence
from dataclasses import dataclass, field
from typing import Protocol, Union

from classroom.exercise.importing.checks import Check

Cell = Union[None, int, str]


@dataclass
class Column:
    """A column, and as what it is carried over."""

    name: str  # in the database
    written: str  # in schema.sql
    kind: str | None  # INTEGER or TEXT; None where its type is not read
    not_null: bool
    why: str = ""  # why it is left out
    note: str = ""  # what it becomes, where its type is another
    digits: int = 0  # of the fraction of a second that each of its texts gets


@dataclass
class Key:
    columns: list[str]
    primary: bool


@dataclass
class Foreign:
    columns: list[str]
    table: str
    to: list[str]  # empty where it refers to a primary key that is not there
    unmet: set[tuple[Cell, ...]] = field(default_factory=set)


@dataclass
class Table:
    name: str
    written: str
    order: list[str] = field(default_factory=list)  # the expressions by which its rows are ordered
    columns: list[Column] = field(default_factory=list)
    keys: list[Key] = field(default_factory=list)
    foreigns: list[Foreign] = field(default_factory=list)
    checks: list[Check] = field(default_factory=list)
    notes: list[str] = field(default_factory=list)  # what else is left out
    count: int = 0
    rows: dict[int, tuple[Cell, ...]] = field(default_factory=dict)  # by their number in that order

    def places(self, names: Sequence[str]) -> list[int]:
        return [[column.name for column in self.columns].index(name) for name in names]


class Source(Protocol):
    """A database within one transaction, so that all that is read is of one moment."""

    left: list[str]  # what is no table and left out

    def fold(self, name: str) -> str:
        """The name as the database compares names."""

    def tables(self, names: Sequence[str]) -> dict[str, Table]:
        """All tables in the order in which they were made; of those of these names, or of all where
        none is given, the values of columns are looked at."""

    def look(self, table: Table) -> None:
        """Counts the rows, and finds columns with values that their kind doesn't have."""

    def first(self, table: Table, count: int) -> dict[int, tuple[Cell, ...]]:
        """The first rows by their number in the table's order."""

    def matching(
        self, table: Table, places: Sequence[int], values: Sequence[tuple[Cell, ...]]
    ) -> dict[int, tuple[Cell, ...]]:
        """The rows that have one of these values in the columns at these places."""

    def full(
        self, tables: Sequence[Table], numbers: Mapping[str, Sequence[int]]
    ) -> tuple[str, bytes | str]:
        """The name and the bytes of a file with the tables as the database has them, and their rows
        of these numbers, all where a table isn't named; a text in place of the bytes tells why
        there is none."""

    def engine(self) -> Mapping[str, str]:
        """What exercise.toml says of the database that tries queries; nothing where that is
        SQLite."""

    def close(self) -> None:
        ...
