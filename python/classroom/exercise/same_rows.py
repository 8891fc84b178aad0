"""Whether `full.db` or `full.sql` has the rows and columns of schema.sql and the CSV files, so that
what is tried is what is proved over."""
from __future__ import annotations

import csv
import io
import re
from collections.abc import Iterator, Mapping, Sequence
from typing import Union

from classroom.base.errors import shown
from classroom.exercise.cells import Cell
from classroom.exercise.importing.dates import MOMENT, form_of, one_form
from classroom.exercise.importing.from_sqlite import family_of, kind_of, written
from classroom.exercise.rows import Held
from classroom.exercise.typed_rows import SQLITE, Material
from classroom.sql.schema import Column, Table
from classroom.sql.tokens import Dialect, Token, tokens

Row = Sequence[Cell]
Value = Union[Cell, tuple[str, ...]]
# Types of PostgreSQL whose columns `import` carries over whatever their values are.
CARRIED = frozenset("smallint integer bigint text character boolean".split())


def rows_of(files: Mapping[str, bytes], tables: Sequence[Table]) -> dict[str, list[Row]]:
    """The cells of the CSV files by the names of their tables, as texts; None where one is
    empty."""
    found: dict[str, list[Row]] = {}
    for table in tables:
        text = files.get(f"{table.name}.csv", b"").decode("utf-8", "replace")
        lines = [line for line in csv.reader(io.StringIO(text, newline="")) if line]
        found[table.name] = [[cell or None for cell in line] for line in lines[1:]]
    return found


def difference(whole: Material, tables: Sequence[Table], rows: Mapping[str, Sequence[Row]]) -> str:
    """Where the material first has other columns or rows than these tables, by table, row of the
    CSV file and column; empty where it has the same in the same order.

    Of a column that schema.sql has not, only that counts which `import` is sure to carry over."""
    held = {
        of.table.name: (of, types_of(whole.product, of, statement))
        for of, statement in zip(whole.pool.held, whole.statements, strict=True)
    }
    for table in tables:
        if table.name not in held:
            return f"the table {shown(table.name)} is in schema.sql alone"
        of, types = held[table.name]
        what = of_columns(of, table, types) or of_rows(of, table, types, rows[table.name])
        if what:
            return f"table {shown(table.name)}, {what}"
    return ""


def types_of(product: str, of: Held, statement: str) -> dict[str, str]:
    """The declared types of a table's columns by their names; of PostgreSQL the first word of each,
    and nothing of arrays."""
    if product == SQLITE:
        return {column.name: column.kind for column in of.table.columns}
    found = {}
    for item in items_of(tokens(statement, Dialect.POSTGRESQL)):
        words = [token.word for token in item[1:]]
        if words and "[" not in words:
            found[item[0].name] = "text" if words[:2] == ["character", "varying"] else words[0]
    return found


def items_of(read: Sequence[Token]) -> Iterator[list[Token]]:
    """What stands between the commas of a CREATE TABLE's parentheses."""
    depth, item = 0, list[Token]()
    for token in read:
        depth += (token.text == "(") - (token.text == ")")
        if depth == 1 and token.text in ("(", ",") or not depth and item:
            if item:
                yield item
            item = []
            if not depth:
                return
        elif depth:
            item.append(token)


def of_columns(of: Held, table: Table, types: Mapping[str, str]) -> str:
    """A column that only one of the two has."""
    theirs = {written(column.name) for column in of.table.columns}
    ours = {column.name for column in table.columns}
    for column in table.columns:
        if column.name not in theirs:
            return f"column {shown(column.name)}, which is in schema.sql alone"
    for place, column in enumerate(of.table.columns):
        values = [row[place] for row in of.rows if row[place] is not None]
        if written(column.name) not in ours and is_carried(types.get(column.name, ""), values):
            return f"column {shown(column.name)}, which schema.sql has not"
    return ""


def is_carried(declared: str, values: Sequence[Cell]) -> bool:
    """Whether `import` carries a column of this type over, whatever further values it has. Of
    numbers with a decimal point that is not known: they may be whole in these rows alone."""
    if declared in CARRIED:
        return True
    if declared == "date":
        return bool(values) and all(form_of(str(value)) is not None for value in values)
    kind, family = kind_of(declared), family_of(declared)
    if kind:
        return all(isinstance(value, int if kind == "INTEGER" else str) for value in values)
    if family == "boolean":
        return bool(values) and all(value in (0, 1) for value in values)
    return bool(values) and family == "moment" and one_form(map(str, values))


def of_rows(of: Held, table: Table, types: Mapping[str, str], rows: Sequence[Row]) -> str:
    """The first row or cell that differs."""
    for number, row in enumerate(rows, 1):
        if len(row) != len(table.columns):
            return f"row {number}, which has {len(row)} fields"
    places = {written(column.name): place for place, column in enumerate(of.table.columns)}
    chosen = [(column, places[column.name]) for column in table.columns]
    declared = [types.get(of.table.columns[place].name, "") for _, place in chosen]
    theirs = [
        [
            value_of(as_written(row[place], word), column, word)
            for (column, place), word in zip(chosen, declared)
        ]
        for row in of.rows
    ]
    ours = [
        [value_of(cell, column, word) for cell, column, word in zip(row, table.columns, declared)]
        for row in rows
    ]
    if ours == theirs:
        return ""
    names = [place for _, place in chosen]
    keys = [key for key in of.keys if set(key) <= set(names)]
    key = [names.index(place) for place in keys[0]] if keys else range(len(chosen))
    if len(ours) != len(theirs):
        number = without(ours, theirs, key)
        if number:
            return f"row {number}, which the database's file has not"
        return f"whose row {without(theirs, ours, key) or len(ours) + 1} there the CSV file has not"
    number = next(at for at, (our, their) in enumerate(zip(ours, theirs)) if our != their)
    if keyed(theirs[number], key) in [keyed(row, key) for row in ours if row != ours[number]]:
        return f"row {number + 1}, which stands at another place there"
    at = next(at for at, pair in enumerate(zip(ours[number], theirs[number])) if pair[0] != pair[1])
    return f"row {number + 1}, column {shown(table.columns[at].name)}"


def keyed(row: Sequence[Value], key: Sequence[int]) -> tuple[Value, ...]:
    return tuple(row[place] for place in key)


def without(
    rows: Sequence[Sequence[Value]], others: Sequence[Sequence[Value]], key: Sequence[int]
) -> int:
    """The number of the first row whose key no other has, from 1; 0 where there is none."""
    known = {keyed(row, key) for row in others}
    return next((number for number, row in enumerate(rows, 1) if keyed(row, key) not in known), 0)


def as_written(cell: Cell, declared: str) -> Cell:
    """A cell of the database's file as `import` writes it."""
    if declared == "boolean" and cell in ("t", "f"):
        return int(cell == "t")
    return cell.rstrip(" ") if declared == "character" and isinstance(cell, str) else cell


def value_of(cell: Cell, column: Column, declared: str) -> Value:
    """A cell as it is compared; of PostgreSQL's moments without what `import` writes alike in a
    whole column: zeros at the end of a second's fraction, and the zone."""
    if cell is None or isinstance(cell, bytes):
        return cell
    text = str(cell)
    whole = re.fullmatch(r"([-+]?[0-9]+)(?:\.0*)?", text) if column.kind == "INTEGER" else None
    found = MOMENT.fullmatch(text) if declared in ("time", "timestamp") else None
    if whole:
        return int(whole[1])
    if found and found["seconds"]:
        seconds, fraction = found["seconds"][:3], (found["fraction"] or "").rstrip("0")
        return (found["date"] or "", f"{found['time']}{seconds}", fraction)
    return text or None
