"""The queries in a notebook that was handed in.

A cell answers the task that it names: by a tag `task-3` or the `grade_id` of nbgrader, or by a
comment `-- task 3` in a cell of `%%sql`. A cell has the query as it is, behind `%%sql`, or as the
one text that it gives to a name. Nothing in a notebook is run.

Source: the documentation of nbformat 4 and of nbgrader's metadata.
"""
from __future__ import annotations

import ast
import json
import re
from collections.abc import Callable, Iterator
from dataclasses import dataclass

from classroom.sql.tokens import is_blank

MOST_CELLS = 5_000
MOST_CELL = 65_536  # characters, as an answer has
ENDING = ".ipynb"
MAGIC = re.compile(r"\s*%%sql\b[^\n]*\n?")
LINE = re.compile(r"\s*%sql[ \t]+([^\n]+)\s*")
# A cell in which nobody wrote: nbgrader's own text, and comments.
TO_DO = re.compile(r"(?:\s*#[^\n]*\n)*\s*(?:raise NotImplementedError\(\))?\s*")
TAG = re.compile(r"task[-_ ]?(.+)", re.IGNORECASE)


@dataclass(frozen=True)
class Cell:
    """A cell with a query."""

    named: str  # what names its task, in tags and the grade_id; empty where nothing does
    text: str
    number: int  # of the cell, from 1


def cells_of(content: bytes) -> list[Cell]:
    """The cells that may be answers; a ValueError says why there are none."""
    try:
        whole = json.loads(content.decode("utf-8-sig"))
    except (ValueError, RecursionError):
        raise ValueError("no notebook: it is not JSON") from None
    listed = whole.get("cells") if isinstance(whole, dict) else None
    if not isinstance(listed, list):
        raise ValueError("no notebook of version 4: it has no cells")
    if len(listed) > MOST_CELLS:
        raise ValueError(f"it has more than {MOST_CELLS:,} cells")
    return [
        cell
        for number, one in enumerate(listed, 1)
        if isinstance(one, dict) and (cell := _cell(one, number))
    ]


def _cell(one: dict[str, object], number: int) -> Cell | None:
    source = one.get("source")
    if isinstance(source, list):
        source = "".join(line for line in source if isinstance(line, str))
    if not isinstance(source, str) or one.get("cell_type") == "markdown":
        return None
    named = _named(one.get("metadata"))
    magic = MAGIC.match(source)
    if magic:
        return Cell(named, source[magic.end() :], number)
    if not named:
        return None
    if TO_DO.fullmatch(source):
        return None
    line = LINE.fullmatch(source)
    return Cell(named, line[1] if line else _text_given(source), number)


def _named(metadata: object) -> str:
    """What names the task of a cell; a cell of tests has none."""
    if not isinstance(metadata, dict):
        return ""
    tags = metadata.get("tags")
    for tag in tags if isinstance(tags, list) else ():
        found = TAG.fullmatch(tag) if isinstance(tag, str) else None
        if found:
            return found[1]
    nbgrader = metadata.get("nbgrader")
    if isinstance(nbgrader, dict) and nbgrader.get("solution") is not False:
        grade_id = nbgrader.get("grade_id")
        return grade_id if isinstance(grade_id, str) else ""
    return ""


def _text_given(source: str) -> str:
    """The one text that a cell of Python gives to a name, else the cell as it is."""
    if len(source) > MOST_CELL:
        return source
    try:
        body = ast.parse(source).body
    except (SyntaxError, ValueError, RecursionError, MemoryError):
        return source
    texts = [
        one.value.value
        for one in body
        if isinstance(one, ast.Assign)
        and isinstance(one.value, ast.Constant)
        and isinstance(one.value.value, str)
    ]
    return texts[0] if len(texts) == 1 else source


def parts(
    content: bytes, task_of: Callable[[str], str | None], comment: re.Pattern[str], only: str | None
) -> tuple[list[tuple[str, str]], list[str]]:
    """The tasks that cells answer, each with its text, and why other cells of SQL answer none;
    `task_of` gives the task that a name means, `comment` has the task as its first group, `only` is
    the task of a single cell that names none."""
    try:
        found = [cell for cell in cells_of(content) if not is_blank(cell.text)]
    except ValueError as why:
        return [], [str(why)]
    tasks = [_task(cell, task_of, comment) for cell in found]
    if len(found) == 1 and tasks == [None]:
        tasks = [only]
    made, faults = [], []
    for cell, task in zip(found, tasks):
        if task is None:
            faults.append(f"cell {cell.number} has a query and names no task")
        elif tasks.count(task) > 1:
            faults.append(f"two cells name the task {task}")
        else:
            made.append((task, cell.text.strip("\n") + "\n"))
    if not found:
        faults.append("no cell names a task: by a tag task-T, or by %%sql and a comment -- task T")
    return made, list(dict.fromkeys(faults))


def _task(cell: Cell, task_of: Callable[[str], str | None], comment: re.Pattern[str]) -> str | None:
    names: Iterator[str] = iter([cell.named] if cell.named else [])
    found = next(filter(None, map(task_of, names)), None)
    if found:
        return found
    said = comment.search(cell.text)
    return task_of(said[1].rstrip(":.,;)")) if said else None
