"""Reads all rows of a database or of an exercise."""
from __future__ import annotations

import csv
import io
import re
from pathlib import Path

from classroom.exercise import exercise
from classroom.exercise.importing import export
from classroom.exercise.importing.source import opened
from classroom.base.errors import Fault, shown
from classroom.exercise.rows import Cell, Foreign, Held, Pool
from classroom.exercise.rules import rules_of
from classroom.sql.schema import Column, Table, tables_of, unmarked


def read(source: str) -> tuple[Pool, list[str]]:
    """The rows of a source, and what has to be told of it."""
    if (Path(source) / "schema.sql").is_file():
        return of_exercise(Path(source)), []
    return of_database(source)


def of_database(name: str) -> tuple[Pool, list[str]]:
    source = opened(name)
    chosen = export.choose(source, [])
    for table in chosen.values():
        source.look(table)
    notes = list(source.left) + list(export.leave_out(chosen))
    export.check_limits(chosen, 1)
    for table in chosen.values():
        table.rows = source.first(table, max(table.count, 1))
    notes += export.check_rows(chosen)
    source.close()
    order = list(chosen)
    held = []
    for table in chosen.values():
        columns = tuple(Column(column.written, column.kind or "TEXT") for column in table.columns)
        held.append(
            Held(
                Table(table.written, columns),
                [table.rows[number] for number in sorted(table.rows)],
                [tuple(table.places(key.columns)) for key in table.keys],
                [
                    Foreign(
                        tuple(table.places(foreign.columns)),
                        order.index(foreign.table),
                        tuple(chosen[foreign.table].places(foreign.to)),
                    )
                    for foreign in table.foreigns
                ],
            )
        )
    return Pool(export.schema_text(chosen).encode(), held), notes


def of_exercise(folder: Path) -> Pool:
    text = exercise.read(folder / "schema.sql")
    tables = tables_of(text.decode("utf-8", "replace"))
    names = [table.name for table in tables]
    places = [
        {column.name: place for place, column in enumerate(table.columns)} for table in tables
    ]
    held = []
    try:
        for at, (table, rules) in enumerate(
            zip(tables, rules_of(text.decode("utf-8", "replace")), strict=True)
        ):
            held.append(
                Held(
                    table,
                    rows_of(folder / f"{table.name}.csv", table),
                    [tuple(places[at][name] for name in key) for key in rules.keys],
                    [
                        Foreign(
                            tuple(places[at][name] for name in columns),
                            names.index(target),
                            tuple(places[names.index(target)][name] for name in to),
                        )
                        for columns, target, to in rules.foreigns
                    ],
                )
            )
    except (KeyError, IndexError, ValueError):
        raise Fault(
            f"{shown(str(folder))}: schema.sql can't be read: `ratest` tells what is wrong with it"
        ) from None
    return Pool(text, held)


def rows_of(path: Path, table: Table) -> list[tuple[Cell, ...]]:
    """The rows of a CSV file of any length."""
    try:
        text = path.read_bytes().decode("utf-8")
    except UnicodeDecodeError:
        raise Fault(f"{shown(str(path))}: not UTF-8") from None
    lines = [line for line in csv.reader(io.StringIO(unmarked(text), newline="")) if line]
    rows: list[tuple[Cell, ...]] = []
    for number, line in enumerate(lines[1:], 1):
        if len(line) != len(table.columns):
            raise Fault(
                f"{shown(str(path))}: row {number} has {len(line)} fields, not {len(table.columns)}"
            )
        rows.append(
            tuple(cell(value, column, path, number) for value, column in zip(line, table.columns))
        )
    return rows


def cell(value: str, column: Column, path: Path, number: int) -> Cell:
    if value == "":
        return None
    if column.kind != "INTEGER":
        return value
    if not re.fullmatch("[-+]?[0-9]{1,19}", value):
        raise Fault(f"{shown(str(path))}: row {number}: {shown(column.name)} is no whole number")
    return int(value)
