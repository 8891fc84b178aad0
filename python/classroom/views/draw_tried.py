"""Draws a tried witness as a proved one is: the same tables, and rows as SQL."""
from __future__ import annotations

import itertools

from ratest.draw import AnswerRow, Cell, Drawing, KeptTable, Line, cell
from ratest.schema import quoted
from classroom.verdict.compare import ORDER
from classroom.exercise import cells as values
from classroom.exercise.cells import Cells
from classroom.verdict.verdict import Differs


def drawing(of: Differs) -> Drawing:
    columns = {table.name: table.columns for table in of.tables}
    tables = tuple(
        KeptTable(name, columns[name], tuple(Line(row.number, cells(row.cells)) for row in rows))
        for name, rows in itertools.groupby(of.kept, key=lambda row: row.table)
    )
    return Drawing(tables, *answers(of), sql(of))


def answers(of: Differs) -> tuple[tuple[AnswerRow, ...], tuple[AnswerRow, ...]]:
    """Both answers, first what only one of them has, each row as often as it comes; in their own
    order where that is what differs."""
    if of.difference == ORDER:
        return tuple(AnswerRow(False, cells(line)) for line in of.reference.lines), tuple(
            AnswerRow(False, cells(line)) for line in of.answer.lines
        )
    only: tuple[list[AnswerRow], list[AnswerRow]] = ([], [])
    both: list[AnswerRow] = []
    for line in of.lines:
        shared = min(line.reference, line.answer)
        both += [AnswerRow(False, cells(line.cells))] * shared
        only[0].extend([AnswerRow(True, cells(line.cells))] * (line.reference - shared))
        only[1].extend([AnswerRow(True, cells(line.cells))] * (line.answer - shared))
    return (*only[0], *both), (*only[1], *both)


def cells(row: Cells) -> tuple[Cell, ...]:
    return tuple(map(drawn, row))


def drawn(value: values.Cell) -> Cell:
    if isinstance(value, bytes):
        return Cell("text", f"X'{value.hex()}'")
    if isinstance(value, float):
        return Cell("number", f"{value:.15g}")
    return cell(value)


def sql(of: Differs) -> str:
    """The tables as the database has them, and the kept rows, as it reads them."""
    statements = [f"{table.statement};\n" for table in of.tables]
    columns = {table.name: ", ".join(map(quoted, table.columns)) for table in of.tables}
    statements += [
        f"INSERT INTO {quoted(row.table)} ({columns[row.table]}) VALUES"
        f" ({', '.join(map(literal, row.cells))});\n"
        for row in of.kept
    ]
    return "".join(statements)


def literal(value: values.Cell) -> str:
    if value is None:
        return "NULL"
    if isinstance(value, bytes):
        return f"X'{value.hex()}'"
    return str(value) if isinstance(value, (int, float)) else "'" + value.replace("'", "''") + "'"
