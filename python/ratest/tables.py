"""Tables as they are given, written as the CSV files that `ratest` reads.

Tables come as a dictionary from names to rows, paths of CSV files or pandas DataFrames, or as a
connection to an SQLite database. """
from __future__ import annotations

import csv
import io
import os
import sqlite3
from collections.abc import Iterable, Mapping, Sequence
from typing import Any, Union

from ratest.schema import Table, marked, quoted

# One byte more than is read of a file: what is longer is as long.
MOST_BYTES = 4_194_305

Path = Union[str, "os.PathLike[str]"]
Rows = Sequence[Sequence[Any]]
Source = Union[Mapping[str, Union[Rows, Path, Any]], sqlite3.Connection]


def csv_files(source: Source, tables: Sequence[Table]) -> dict[str, bytes]:
    """The CSV file of each table of the schema, by its name. A table that isn't given has no
    rows."""
    if isinstance(source, sqlite3.Connection):
        return {table.name: csv_text(table, from_sqlite(source, table)) for table in tables}
    unknown = sorted(set(source) - {table.name for table in tables})
    if tables and unknown:
        raise ValueError(f"no table of the schema: {', '.join(unknown)}")
    return {table.name: csv_file(table, source.get(table.name, ())) for table in tables}


def csv_file(table: Table, given: Any) -> bytes:
    if isinstance(given, (str, os.PathLike)):
        with open(given, "rb") as file:
            return file.read(MOST_BYTES)
    return csv_text(table, from_frame(given, table) if hasattr(given, "columns") else given)


def from_sqlite(connection: sqlite3.Connection, table: Table) -> Iterable[Sequence[Any]]:
    """The rows of a table of a database, in its order."""
    known = {
        str(row[1]).casefold()
        for row in connection.execute(f"PRAGMA table_info({quoted(table.name)})")
    }
    if not known:
        raise ValueError(f"the database has no table {table.name}")
    # SQLite would take a name that it doesn't know for a text.
    for column in table.columns:
        if column.name.casefold() not in known:
            raise ValueError(f"the table {table.name} of the database has no column {column.name}")
    names = ", ".join(quoted(column.name) for column in table.columns)
    return connection.execute(f"SELECT {names} FROM {quoted(table.name)}")


def from_frame(frame: Any, table: Table) -> Iterable[Sequence[Any]]:
    """The rows of a DataFrame, whose missing values are NULL."""
    columns = []
    for column in table.columns:
        if list(frame.columns).count(column.name) != 1:
            raise ValueError(f"the DataFrame of {table.name} needs one column {column.name}")
        cells, gaps = frame[column.name].tolist(), frame[column.name].isna().tolist()
        columns.append([None if is_gap else cell for cell, is_gap in zip(cells, gaps)])
    return zip(*columns)


def csv_text(table: Table, rows: Iterable[Sequence[Any]]) -> bytes:
    lines: list[Sequence[str]] = [[column.name for column in table.columns]]
    for number, row in enumerate(rows, 1):
        if isinstance(row, (str, bytes)) or not isinstance(row, Sequence):
            raise TypeError(f"row {number} of {table.name} is no list of values")
        lines.append([cell_text(table, number, cell) for cell in row])
    text = "".join(map(csv_line, lines))
    return marked(text).encode()


def cell_text(table: Table, number: int, cell: Any) -> str:
    """A value as a field. A whole number may come as a float, since pandas makes floats of columns
    with gaps."""
    if cell is None:
        return ""
    if isinstance(cell, str):
        if not cell:
            raise ValueError(
                f"row {number} of {table.name}: an empty text, which a CSV file can't tell from"
                " NULL"
            )
        return cell
    if isinstance(cell, float) and cell.is_integer():
        return str(int(cell))
    if isinstance(cell, bool) or not hasattr(cell, "__index__"):
        raise TypeError(f"row {number} of {table.name}: {cell!r} is no whole number, text or None")
    return str(int(cell))


def csv_line(cells: Sequence[Any]) -> str:
    text = io.StringIO(newline="")
    # What stands in the line's end is quoted, a lone CR too.
    csv.writer(text, lineterminator="\r\n").writerow(cells)
    return text.getvalue().removesuffix("\r\n") + "\n"
