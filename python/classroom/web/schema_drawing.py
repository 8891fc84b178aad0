"""The schema as a drawing: tables with their columns, keys underlined, and an arrow for each
foreign key.

graphviz draws it once, at the start. Where it isn't there, there is no drawing.
"""
from __future__ import annotations

import logging
import re
import shutil
import subprocess

from classroom.exercise.rules import Rules, rules_of
from classroom.sql.schema import Table
from ratest.draw import escaped

SECONDS = 20
MOST_BYTES = 2_000_000
# Its own head names a document type of another site.
HEAD = re.compile(rb"^.*?(?=<svg\b)", re.DOTALL)
log = logging.getLogger(__name__)


def drawn(schema: str, tables: tuple[Table, ...]) -> bytes | None:
    """The drawing as SVG; None where there is none to be had."""
    program = shutil.which("dot")
    if program is None or not tables:
        return None
    try:
        text = graph(tables, rules_of(schema)).encode("utf-8", "replace")
        ran = subprocess.run(
            [program, "-Tsvg"], input=text, capture_output=True, timeout=SECONDS, check=True
        )
    except (subprocess.SubprocessError, OSError, KeyError, IndexError) as fault:
        log.warning("the schema is not drawn: %s", type(fault).__name__)
        return None
    return HEAD.sub(b"", ran.stdout) if len(ran.stdout) <= MOST_BYTES else None


def graph(tables: tuple[Table, ...], rules: list[Rules]) -> str:
    """The drawing in graphviz's own language."""
    numbers = {table.name: number for number, table in enumerate(tables)}
    lines = [
        'digraph { rankdir=LR; bgcolor="transparent"; node [shape=plain fontname="sans-serif"'
        ' fontsize=11]; edge [color="#77777f"]'
    ]
    for number, (table, own) in enumerate(zip(tables, rules)):
        cells = "".join(
            f'<TR><TD ALIGN="LEFT" PORT="c{at}">{column_text(column.name, own)}</TD></TR>'
            for at, column in enumerate(table.columns)
        )
        lines.append(
            f't{number} [label=<<TABLE BORDER="0" CELLBORDER="1" CELLSPACING="0" COLOR="#77777f"'
            ' BGCOLOR="#ffffff"><TR><TD'
            f' BGCOLOR="#e8e9eb"><B>{escaped(table.name)}</B></TD></TR>{cells}</TABLE>>]'
        )
    for number, (table, own) in enumerate(zip(tables, rules)):
        for columns, other, to in own.foreigns:
            target = numbers[other]
            for column, into in zip(columns, to):
                lines.append(
                    f"t{number}:c{place(table, column)} -> t{target}:c{place(tables[target], into)}"
                )
    return "\n".join([*lines, "}"])


def column_text(name: str, own: Rules) -> str:
    return f"<U>{escaped(name)}</U>" if name in own.primary else escaped(name)


def place(table: Table, column: str) -> int:
    return next(at for at, one in enumerate(table.columns) if one.name == column)
