"""Draws a witness as HTML: the page of a class, the page where students ask and a notebook share
it.

Every text goes through `pictures` and is escaped.
"""
from __future__ import annotations

import itertools
import re
from collections.abc import Iterator, Sequence
from dataclasses import dataclass
from pathlib import Path

from ratest.printed import Kept, Row, Undecided, Value, Witness
from ratest.schema import Table, literal, quoted

STYLES = Path(__file__).with_name("witness.css")
# The colours of a notebook, whose background may be any.
COLOURS = (
    "--line: rgb(128 128 128 / 45%); --panel: rgb(128 128 128 / 12%); --quiet: rgb(128 128 128); "
    "--differs: rgb(200 75 55); --mark: rgb(220 90 60 / 14%);"
)
# As jinja2 writes them.
ESCAPED = {
    ord("&"): "&amp;",
    ord("<"): "&lt;",
    ord(">"): "&gt;",
    ord("'"): "&#39;",
    ord('"'): "&#34;",
}
# Characters that a page may not hold, or that would not be seen, as the pictures that stand for
# them.
PICTURES = (
    {code: 0x2400 + code for code in range(32) if chr(code) not in "\t\n"}
    | {0x7F: 0x2421}
    | {code: 0xFFFD for code in (*range(0x80, 0xA0), *range(0xD800, 0xE000), 0xFFFE, 0xFFFF)}
    | {
        code: f"\u27e8U+{code:04X}\u27e9"
        for code in (*range(0x202A, 0x202F), *range(0x2066, 0x206A))
    }
)
ODD = re.compile(r"-?[0-9]+|'.*'", re.DOTALL)


@dataclass(frozen=True)
class Cell:
    """A value as it is drawn."""

    kind: str  # null, number or text
    text: str


@dataclass(frozen=True)
class Line:
    """A kept row: its number in its table's file, from 1, and its cells."""

    number: int
    cells: tuple[Cell, ...]


@dataclass(frozen=True)
class KeptTable:
    """The kept rows of one table."""

    name: str
    columns: tuple[str, ...]
    lines: tuple[Line, ...]


@dataclass(frozen=True)
class AnswerRow:
    """A row of an answer on the kept rows."""

    is_only: bool  # whether the other query lacks it
    cells: tuple[Cell, ...]


@dataclass(frozen=True)
class Drawing:
    """A witness, or the best rows so far, ready to be drawn."""

    tables: tuple[KeptTable, ...]
    reference: tuple[
        AnswerRow, ...
    ] | None  # what the reference answers on these rows; None where it isn't known
    answer: tuple[AnswerRow, ...] | None
    sql: str  # the rows as statements for a database of one's own


def drawing(outcome: Witness | Undecided, tables: Sequence[Table]) -> Drawing:
    """What is drawn of an outcome over these tables."""
    if isinstance(outcome, Undecided):
        kept = outcome.best or ()
        return Drawing(kept_tables(kept, tables), None, None, sql(kept, tables))
    both = tuple(AnswerRow(False, cells(row)) for row in outcome.both)
    return Drawing(
        kept_tables(outcome.kept, tables),
        tuple(AnswerRow(True, cells(row)) for row in outcome.only_first) + both,
        tuple(AnswerRow(True, cells(row)) for row in outcome.only_second) + both,
        sql(outcome.kept, tables),
    )


def kept_tables(kept: Sequence[Kept], tables: Sequence[Table]) -> tuple[KeptTable, ...]:
    columns = {table.name: tuple(column.name for column in table.columns) for table in tables}
    return tuple(
        KeptTable(name, columns[name], tuple(Line(row.number, cells(row.cells)) for row in rows))
        for name, rows in itertools.groupby(kept, key=lambda row: row.table)
    )


def cells(row: Row) -> tuple[Cell, ...]:
    return tuple(map(cell, row))


def cell(value: Value) -> Cell:
    """A text as it is, in quotes where it could be taken for something else."""
    if value is None:
        return Cell("null", "NULL")
    if isinstance(value, int):
        return Cell("number", str(value))
    is_odd = value != value.strip() or not value or value.upper() == "NULL" or ODD.fullmatch(value)
    return Cell("text", literal(value) if is_odd else value)


def sql(kept: Sequence[Kept], tables: Sequence[Table]) -> str:
    """CREATE TABLE for each table and INSERT for the kept rows, as SQLite and PostgreSQL read them.

    The rules of the schema are left out: the rows meet them, and a database may not have all of
    them."""
    statements = [
        f"CREATE TABLE {quoted(table.name)} ("
        + ", ".join(
            f"{quoted(column.name)} {'BIGINT' if column.kind == 'INTEGER' else 'TEXT'}"
            for column in table.columns
        )
        + ");\n"
        for table in tables
    ]
    statements += [
        f"INSERT INTO {quoted(row.table)} VALUES ({', '.join(map(literal, row.cells))});\n"
        for row in kept
    ]
    return "".join(statements)


def pictures(text: object) -> str:
    """A text without characters that a page may not hold or that would hide or turn what stands
    beside them."""
    return str(text).replace("\r\n", "\n").translate(PICTURES)


def counted(count: int, noun: str) -> str:
    return f"{count} {noun}" if count == 1 else f"{count} {noun}s"


# ---- the tags of a page


def drawn(drawing: Drawing, reference: str = "Reference", answer: str = "Answer") -> str:
    """The kept rows, both answers on them under these titles, and the rows as SQL."""
    parts = [
        *tables_drawn(
            "Kept rows" if drawing.answer is not None else "Best rows so far", drawing.tables
        )
    ]
    if drawing.answer is not None:
        parts += [
            '<h4>Answers on these rows</h4>\n<div class="pair">\n',
            *answer_drawn(reference, drawing.reference or ()),
            *answer_drawn(answer, drawing.answer),
            "</div>\n",
        ]
    parts += [
        '<details class="sql"><summary>These rows as SQL</summary>\n',
        f'<pre tabindex="0"><code>{escaped(drawing.sql)}</code></pre>\n</details>\n',
    ]
    return "".join(parts)


def tables_drawn(title: str, tables: Sequence[KeptTable]) -> Iterator[str]:
    yield f'<h4>{escaped(title)}</h4>\n<div class="tables">\n'
    for table in tables:
        heads = "".join(f'<th scope="col">{escaped(column)}</th>' for column in table.columns)
        yield (
            f'<div class="box"><table class="kept">\n<caption>{escaped(table.name)}</caption>\n'
            f'<thead><tr><th scope="col" class="row">row</th>{heads}</tr></thead>\n<tbody>\n'
        )
        for line in table.lines:
            yield (
                '<tr><th scope="row"'
                f' class="row">{line.number}</th>{cells_drawn(line.cells)}</tr>\n'
            )
        yield "</tbody>\n</table></div>\n"
    yield "</div>\n"


def answer_drawn(title: str, rows: Sequence[AnswerRow]) -> Iterator[str]:
    yield (
        f'<div class="box"><table class="result">\n<caption>{escaped(title)}:'
        f' {counted(len(rows), "row")}</caption>\n<tbody>\n'
    )
    for row in rows:
        kind, words = ("only", "only here") if row.is_only else ("both", "in both")
        yield f'<tr class="{kind}"><th scope="row">{words}</th>{cells_drawn(row.cells)}</tr>\n'
    if not rows:
        yield '<tr class="none"><td>no rows</td></tr>\n'
    yield "</tbody>\n</table></div>\n"


def cells_drawn(row: Sequence[Cell]) -> str:
    return "".join(f'<td class="{cell.kind}">{escaped(cell.text)}</td>' for cell in row)


def escaped(text: str) -> str:
    return pictures(text).translate(ESCAPED)


def in_notebook(drawing: Drawing, title: str, reference: str, answer: str) -> str:
    """The same with its styles, which hold inside of it alone."""
    styles = STYLES.read_text(encoding="utf-8")
    return (
        '<div class="ratest"><style>.ratest'
        f" {{\n{COLOURS}\n{styles}}}\n</style>\n<p><strong>{escaped(title)}</strong></p>\n"
        f"{drawn(drawing, reference, answer)}</div>\n"
    )
