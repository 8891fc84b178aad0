"""A sheet as Markdown, for platforms that take no page.

What a student or a database wrote stands in fences and cells that it can't leave, whatever is in
it. """
from __future__ import annotations

import re
from collections.abc import Iterable, Sequence

from classroom.views.draw import AnswerRow, Cell, Drawing, KeptTable
from classroom.views.for_student import Part, Sheet
from ratest.draw import pictures

# Signs that mean something in Markdown or HTML.
SIGNS = re.compile(r"([\\`*_{}\[\]<>()#+\-.!|~&])")
TICKS = re.compile("`+")


def text_of(sheet: Sheet) -> str:
    return f"# {plain(sheet.title)}: {plain(sheet.name)}\n\n{plain(sheet.points)}\n" + "".join(
        map(part_of, sheet.parts)
    )


def part_of(part: Part) -> str:
    lines = [
        f"\n## Task {plain(part.title)}\n",
        f"**{plain(part.words)}** ({plain(part.points)})\n",
    ]
    if part.late:
        lines.append(f"{plain(part.late)}\n")
    lines += [f"> {plain(line)}\n" for line in part.comment if line.strip()]
    if part.told:
        lines.append(f"{plain(part.told)}\n")
    if part.text is not None:
        lines.append(fenced(part.text, "sql"))
    if part.drawing:
        lines += drawn(part.drawing)
    for number, hint in enumerate(part.hints, 1):
        lines.append(f"Hint {number} of {len(part.hints)}: {plain(hint.text)}\n")
        if hint.place:
            lines.append(fenced(hint.place.marked, "sql"))
    if part.reference is not None:
        lines += ["Reference:\n", fenced(part.reference, "sql")]
    return "\n".join(lines)


def drawn(drawing: Drawing) -> Iterable[str]:
    """The rows as tables, both answers on them, and the rows as SQL to try."""
    for table in drawing.tables:
        yield f"Rows of {plain(table.name)}:\n"
        yield table_of(table)
    for title, rows in (("The reference", drawing.reference), ("Your query", drawing.answer)):
        if rows is not None:
            yield f"{title} answers on these rows:\n"
            yield answer_of(rows)
    yield "These rows as SQL, to try:\n"
    yield fenced(drawing.sql, "sql")


def table_of(table: KeptTable) -> str:
    return grid(
        ["row", *map(plain, table.columns)],
        [[str(line.number), *map(cell, line.cells)] for line in table.lines],
    )


def answer_of(rows: Sequence[AnswerRow]) -> str:
    if not rows:
        return "no rows\n"
    return grid(
        ["", *(" " for _ in rows[0].cells)],
        [["only here" if row.is_only else "in both", *map(cell, row.cells)] for row in rows],
    )


def grid(head: Sequence[str], rows: Iterable[Sequence[str]]) -> str:
    return "".join(f"| {' | '.join(line)} |\n" for line in (head, ["---"] * len(head), *rows))


def cell(of: Cell) -> str:
    return plain(of.text)


def plain(text: str) -> str:
    """A text on one line that means nothing but itself."""
    return SIGNS.sub(r"\\\1", " ".join(pictures(text).split("\n")))


def fenced(text: str, kind: str) -> str:
    """The text in a fence that is longer than any in it."""
    fence = "`" * max([3, *(len(ticks) + 1 for ticks in TICKS.findall(text))])
    return f"{fence}{kind}\n{pictures(text).removesuffix(chr(10))}\n{fence}\n"
