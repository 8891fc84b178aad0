"""Schemas and rows, as `ratest`, SQLite and PostgreSQL read them."""
from __future__ import annotations

import csv
import io
from dataclasses import dataclass, field
from typing import Literal, Optional, Union

from .query import Condition, Kind, Query, Writer, quoted

Value = Union[int, str, None]
Row = tuple[Value, ...]
Dialect = Literal["ratest", "sqlite", "postgres"]

# INT is no alias of SQLite's row number where it is a primary key, as INTEGER is; PostgreSQL's
# INTEGER has 32 bits.
TYPES: dict[Dialect, dict[Kind, str]] = {
    "ratest": {"int": "INTEGER", "text": "TEXT"},
    "sqlite": {"int": "INT", "text": "TEXT"},
    "postgres": {"int": "BIGINT", "text": "TEXT"},
}


@dataclass(frozen=True)
class Column:
    name: str
    kind: Kind
    not_null: bool = False


@dataclass(frozen=True)
class ForeignKey:
    columns: tuple[str, ...]
    table: str
    referenced: tuple[str, ...]


@dataclass
class Table:
    name: str
    columns: list[Column]
    primary_key: tuple[str, ...] = ()
    unique: list[tuple[str, ...]] = field(default_factory=list)
    foreign_keys: list[ForeignKey] = field(default_factory=list)
    checks: list[Condition] = field(default_factory=list)

    def kind_of(self, name: str) -> Kind:
        return next(column.kind for column in self.columns if column.name == name)

    def keys(self) -> list[tuple[str, ...]]:
        return ([self.primary_key] if self.primary_key else []) + self.unique


@dataclass
class Case:
    """Rows stand by the names of their tables, in the order of the file."""

    tables: list[Table]
    rows: dict[str, list[Row]]
    first: Query
    second: Query
    # Whether a number of the case may be near the ends of 64 bits, so that arithmetic is left out.
    is_wide: bool = False

    def places(self) -> list[tuple[str, int]]:
        """The table and the number from 0 of each row, in the order in which `ratest` counts
        them."""
        return [
            (table.name, at) for table in self.tables for at in range(len(self.rows[table.name]))
        ]


def names(columns: tuple[str, ...]) -> str:
    return "(" + ", ".join(quoted(name) for name in columns) + ")"


def create_table(table: Table, dialect: Dialect) -> str:
    """Foreign keys of PostgreSQL are added behind all tables (`add_foreign_keys`)."""
    items = []
    for column in table.columns:
        # SQLite lets NULL into a primary key.
        is_full = column.not_null or dialect == "sqlite" and column.name in table.primary_key
        items.append(
            f"{quoted(column.name)} {TYPES[dialect][column.kind]}"
            + (" NOT NULL" if is_full else "")
        )
    if table.primary_key:
        items.append(f"PRIMARY KEY {names(table.primary_key)}")
    items += [f"UNIQUE {names(key)}" for key in table.unique]
    if dialect != "postgres":
        # Rows are put in one after the other, and may refer to one another.
        late = " DEFERRABLE INITIALLY DEFERRED" if dialect == "sqlite" else ""
        items += [
            f"FOREIGN KEY {names(key.columns)} REFERENCES"
            f" {quoted(key.table)} {names(key.referenced)}{late}"
            for key in table.foreign_keys
        ]
    items += [
        f"CHECK ({Writer(dialect, plain_names=True).condition(check)})" for check in table.checks
    ]
    return f"CREATE TABLE {quoted(table.name)} (" + ", ".join(items) + ");"


def schema(case: Case, dialect: Dialect) -> str:
    return "\n".join(create_table(table, dialect) for table in case.tables) + "\n"


def add_foreign_keys(case: Case) -> str:
    return "\n".join(
        f"ALTER TABLE {quoted(table.name)} ADD FOREIGN KEY {names(key.columns)} REFERENCES"
        f" {quoted(key.table)} {names(key.referenced)} DEFERRABLE INITIALLY DEFERRED;"
        for table in case.tables
        for key in table.foreign_keys
    )


def csv_text(table: Table, rows: list[Row]) -> str:
    """NULL is an empty field."""
    out = io.StringIO()
    writer = csv.writer(out, lineterminator="\n", quoting=csv.QUOTE_MINIMAL)
    writer.writerow([column.name for column in table.columns])
    for row in rows:
        # The csv module writes a lone empty field as "", which is NULL too.
        writer.writerow(["" if value is None else value for value in row])
    return out.getvalue()


def cell(value: Value) -> str:
    if value is None:
        return "NULL"
    return str(value) if isinstance(value, int) else "'" + value.replace("'", "''") + "'"


def cells(row: Row) -> str:
    return ", ".join(cell(value) for value in row)


def sort_key(row: Row) -> list[tuple[int, int, bytes]]:
    """NULL first, then whole numbers, then texts by their bytes."""
    return [
        (
            (0, 0, b"")
            if value is None
            else (1, value, b"")
            if isinstance(value, int)
            else (2, 0, value.encode())
        )
        for value in row
    ]


def kept_lines(case: Case, kept: Optional[list[tuple[str, int]]]) -> str:
    return "".join(f"{name} {at + 1}: {cells(case.rows[name][at])}\n" for name, at in kept or [])


def witness_text(case: Case, kept: list[tuple[str, int]], first: set[Row], second: set[Row]) -> str:
    """What `ratest` has to print of a witness, by the answers that another program gives on these
    rows."""
    text = f"witness: {len(kept)}\n" + kept_lines(case, kept)
    for title, rows in (("only query 1", first - second), ("only query 2", second - first)):
        text += f"{title}: {len(rows)}\n" + "".join(
            f"  {cells(row)}\n" for row in sorted(rows, key=sort_key)
        )
    both = sorted(first & second, key=sort_key)
    return text + f"both: {len(both)}\n" + "".join(f"  {cells(row)}\n" for row in both)
