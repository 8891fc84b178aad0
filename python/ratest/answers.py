"""The answers to a question, as they are given to a caller."""
from __future__ import annotations

from collections.abc import Mapping, Sequence
from dataclasses import dataclass, field
from typing import Union

from ratest import draw, printed
from ratest.printed import Kept, Row
from ratest.schema import Table

TITLES = ("Query 1", "Query 2")


@dataclass(frozen=True)
class KeptRows:
    """The rows that are kept of one table."""

    columns: tuple[str, ...]
    numbers: tuple[int, ...]  # each row's number among those that were given, from 1
    rows: tuple[Row, ...]


@dataclass(frozen=True)
class Agree:
    """The queries answer alike on every lawful part of the rows."""


@dataclass(frozen=True)
class Never:
    """On no lawful part of the rows the first query answers with the row and the second doesn't."""


class _OverRows:
    """An answer with rows that are kept."""

    _drawing: draw.Drawing

    def to_sql(self) -> str:
        """CREATE TABLE for each table and INSERT for the kept rows."""
        return self._drawing.sql

    def _repr_html_(self) -> str:
        return draw.in_notebook(self._drawing, self._title(), *TITLES)

    def _title(self) -> str:
        raise NotImplementedError


@dataclass(frozen=True)
class Witness(_OverRows):
    """The fewest rows on which the queries answer differently, and both answers on them."""

    kept: Mapping[str, KeptRows]
    only_first: tuple[Row, ...]
    only_second: tuple[Row, ...]
    both: tuple[Row, ...]
    printed: str = field(repr=False)
    _drawing: draw.Drawing = field(repr=False, compare=False)

    @property
    def size(self) -> int:
        """How many rows are kept."""
        return sum(len(of.rows) for of in self.kept.values())

    def _title(self) -> str:
        return f"The queries differ on {draw.counted(self.size, 'row')}, and on no fewer"

    def __str__(self) -> str:
        return self.printed


@dataclass(frozen=True)
class Undecided(_OverRows):
    """The budget was spent. The best rows so far are kept, none where none are known."""

    conflicts: int
    kept: Mapping[str, KeptRows] | None
    printed: str = field(repr=False)
    _drawing: draw.Drawing = field(repr=False, compare=False)

    def _title(self) -> str:
        return f"Undecided after {draw.counted(self.conflicts, 'conflict')}"

    def __str__(self) -> str:
        return self.printed


@dataclass(frozen=True)
class Refused:
    """A text that is not accepted, or a limit that is passed."""

    part: str  # schema, table NAME, query 1, query 2, queries, row, or limit
    cause: str
    line: int | None  # of the text of this part, where the cause has a place in it, from 1
    column: int | None  # in characters, from 1

    def __str__(self) -> str:
        where = "" if self.line is None else f" (line {self.line}, column {self.column})"
        return f"{self.part}: {self.cause}{where}"


@dataclass(frozen=True)
class Grade:
    """How the query of an answer stands to the reference."""

    kind: str  # agrees, differs, undecided, refused or limit
    rows: int | None  # of the smallest witness, where it differs
    cause: str  # why it is refused, or the limit

    @property
    def agrees(self) -> bool:
        return self.kind == "agrees"


@dataclass(frozen=True)
class Certificate:
    """A verdict that others can check, as its text."""

    text: str


@dataclass(frozen=True)
class Valid:
    """The certificate shows that no witness is smaller, or that the queries agree."""

    size: int | None  # of the witness; None where the queries agree


@dataclass(frozen=True)
class Rejected:
    """The certificate shows nothing."""

    cause: str


Answer = Union[Agree, Witness, Undecided, Refused]
Reason = Union[Never, Witness, Undecided, Refused]


def witness_of(outcome: printed.Witness, text: str, tables: Sequence[Table]) -> Witness:
    return Witness(
        by_table(outcome.kept, tables),
        outcome.only_first,
        outcome.only_second,
        outcome.both,
        text,
        draw.drawing(outcome, tables),
    )


def undecided_of(outcome: printed.Undecided, text: str, tables: Sequence[Table]) -> Undecided:
    kept = None if outcome.best is None else by_table(outcome.best, tables)
    return Undecided(outcome.conflicts, kept, text, draw.drawing(outcome, tables))


def by_table(kept: Sequence[Kept], tables: Sequence[Table]) -> dict[str, KeptRows]:
    """The kept rows of each table that has some."""
    found = {}
    for table in tables:
        rows = [row for row in kept if row.table == table.name]
        if rows:
            found[table.name] = KeptRows(
                tuple(column.name for column in table.columns),
                tuple(row.number for row in rows),
                tuple(row.cells for row in rows),
            )
    return found
