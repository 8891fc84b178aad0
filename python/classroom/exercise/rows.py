"""All rows of a source, and their lawful parts as files."""
from __future__ import annotations

from collections.abc import Collection, Iterable, Sequence
from dataclasses import dataclass, field
from typing import NamedTuple, Protocol, Union

from ratest.tables import csv_line
from classroom.sql.schema import Table, marked

Cell = Union[None, int, str]
Cells = tuple[Cell, ...]


class Numbered(Protocol):
    """A row of a witness."""

    @property
    def table(self) -> str:
        ...

    @property
    def number(self) -> int:
        """In its table's file, from 1."""


class Row(NamedTuple):
    """A row by the number of its table in the schema and its own in the table, both from 0."""

    table: int
    number: int


@dataclass(frozen=True)
class Foreign:
    """What a table's rows refer to."""

    places: tuple[int, ...]
    table: int
    to: tuple[int, ...]


@dataclass
class Held:
    """A table with all of its rows, in the order of the primary key or of its file."""

    table: Table
    rows: list[Cells]
    keys: list[tuple[int, ...]]
    foreigns: list[Foreign]


@dataclass
class Pool:
    """The rows of a source, by tables in the schema's order.

    Rows that break a key or refer to none stand in no part, as no witness has them.
    """

    schema: bytes
    held: list[Held]
    lawful: set[Row] = field(default_factory=set)
    targets: dict[Row, list[Row]] = field(default_factory=dict)  # the rows that a row refers to
    sources: dict[Row, list[Row]] = field(default_factory=dict)  # the rows that refer to it

    def __post_init__(self) -> None:
        self.lawful = {
            Row(at, number) for at, held in enumerate(self.held) for number in range(len(held.rows))
        }
        for at, held in enumerate(self.held):
            for places in held.keys:
                self.lawful -= set(repeated(at, held.rows, places))
        self.link()
        broken = {row for row in self.lawful if len(self.targets[row]) < self.wanted(row)}
        broken = self.with_sources(broken)
        self.lawful -= broken

    def link(self) -> None:
        """Finds for each row those that it refers to, the first where several have the same
        values."""
        self.targets = {row: [] for row in self.lawful}
        self.sources = {row: [] for row in self.lawful}
        for at, held in enumerate(self.held):
            for foreign in held.foreigns:
                index: dict[Cells, Row] = {}
                for number, cells in enumerate(self.held[foreign.table].rows):
                    target = Row(foreign.table, number)
                    if target in self.lawful:
                        index.setdefault(picked(cells, foreign.to), target)
                for number, cells in enumerate(held.rows):
                    row, values = Row(at, number), picked(cells, foreign.places)
                    if row in self.lawful and None not in values and values in index:
                        self.targets[row].append(index[values])
                        self.sources[index[values]].append(row)

    def wanted(self, row: Row) -> int:
        """To how many rows a row refers by its values."""
        held = self.held[row.table]
        return sum(
            None not in picked(held.rows[row.number], foreign.places) for foreign in held.foreigns
        )

    @property
    def total(self) -> int:
        return sum(len(held.rows) for held in self.held)

    def with_targets(self, row: Row) -> list[Row]:
        """A row and all that it refers to, directly or not."""
        return reached([row], self.targets)

    def with_sources(self, rows: Iterable[Row]) -> set[Row]:
        """Rows and all that refer to them, directly or not."""
        return set(reached(rows, self.sources))

    def files(self, rows: Collection[Row]) -> dict[str, bytes]:
        """schema.sql and the CSV files of some rows, in their order."""
        texts = {"schema.sql": self.schema}
        for at, held in enumerate(self.held):
            lines: list[Sequence[Cell]] = [[column.name for column in held.table.columns]]
            lines += [held.rows[row.number] for row in sorted(rows) if row.table == at]
            text = "".join(map(csv_line, lines))
            texts[f"{held.table.name}.csv"] = marked(text).encode()
        return texts

    def named(self, kept: Iterable[Numbered], rows: Collection[Row]) -> frozenset[Row]:
        """The rows of a witness over the files of these rows."""
        by_table = {
            held.table.name: [row for row in sorted(rows) if row.table == at]
            for at, held in enumerate(self.held)
        }
        return frozenset(by_table[row.table][row.number - 1] for row in kept)


def reached(begin: Iterable[Row], links: dict[Row, list[Row]]) -> list[Row]:
    found = dict.fromkeys(begin)
    waiting = list(found)
    while waiting:
        for row in links[waiting.pop()]:
            if row not in found:
                found[row] = None
                waiting.append(row)
    return list(found)


def repeated(at: int, rows: Sequence[Cells], places: tuple[int, ...]) -> Iterable[Row]:
    """The rows whose key an earlier row has."""
    seen: set[Cells] = set()
    for number, cells in enumerate(rows):
        values = picked(cells, places)
        if None not in values and values in seen:
            yield Row(at, number)
        seen.add(values)


def picked(cells: Cells, places: Sequence[int]) -> Cells:
    return tuple(cells[place] for place in places)
