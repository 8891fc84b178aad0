"""What is served of an exercise: it as it was when the server began, copied into a folder of its
own.

So a change of the exercise counts from the next start on, and no call reads in the exercise itself.
"""
from __future__ import annotations

import csv
import io
from collections.abc import Collection, Sequence
from dataclasses import dataclass, replace
from pathlib import Path

from classroom.exercise.exercise import Exercise, Task, digest
from classroom.sql.schema import Table
from classroom.views.for_teacher import references_of
from classroom.views.task_question import question
from classroom.web import schema_drawing as relations
from classroom.exercise.window import Window
from classroom.exercise.settings import Settings
from classroom.sql.tokens import Dialect

MOST_ROWS = 100  # of a table that are shown


@dataclass(frozen=True)
class Offered:
    """A task at which one may ask."""

    name: str  # by which it is asked
    title: str  # as the page shows it
    question: str  # as HTML; empty where there is none
    reference: str  # the name of the reference query's copy
    digest: str  # of the reference query
    solution: str  # the reference queries; empty where they are never shown
    is_tried: bool = False  # `ratest` refuses the reference, so a database alone answers
    others: tuple[Offered, ...] = ()  # the same by each further reference

    @property
    def references(self) -> tuple[Offered, ...]:
        """The task by each of its references."""
        return (self, *self.others)


@dataclass(frozen=True)
class Rows:
    """A table as it is shown."""

    name: str
    columns: tuple[str, ...]
    rows: tuple[tuple[str | None, ...], ...]  # the first MOST_ROWS
    count: int


@dataclass(frozen=True)
class Material:
    """The copy, with schema.sql, the CSV files and the reference queries."""

    title: str
    folder: Path
    tasks: tuple[Offered, ...]
    tables: tuple[Table, ...]
    schema: str
    digest: str  # of the schema and the rows
    rows: tuple[Rows, ...]
    drawing: bytes | None  # of the schema, as SVG
    window: Window
    settings: Settings = Settings()
    dialect: Dialect = Dialect.SQLITE  # of what is asked

    def task(self, name: str) -> Offered | None:
        return next((task for task in self.tasks if task.name == name), None)


def copied(given: Exercise, folder: Path, tried: Collection[tuple[str, str]] = ()) -> Material:
    """Copies what is needed of an exercise into an empty folder: of the tasks those that can be
    graded, by each reference that `ratest` reads or a database tries. `tried` are the latter, by
    the labels of their tasks and their files."""
    for name, text in given.files.items():
        (folder / name).write_bytes(text)
    settings = given.settings
    window = Window(
        settings.opens, settings.last_moment, settings.after_close == "reference", settings.timezone
    )
    tasks = []
    for number, task in enumerate(given.tasks):
        usable = [by for by in task.references if not by.fault or (by.label, by.source) in tried]
        if usable:
            first, *others = (
                offered(by, f"{number}.{at}.reference", folder, window)
                for at, by in enumerate(usable)
            )
            tasks.append(replace(first, others=tuple(others)))
    schema = given.files["schema.sql"].decode("utf-8", "replace")
    rows = tuple(
        rows_of(table, given.files.get(f"{table.name}.csv", b"")) for table in given.tables
    )
    return Material(
        given.title,
        folder,
        tuple(tasks),
        given.tables,
        schema,
        given.digest,
        rows,
        relations.drawn(schema, given.tables),
        window,
        settings,
        given.dialect,
    )


def offered(task: Task, name: str, folder: Path, window: Window) -> Offered:
    (folder / name).write_bytes(task.reference)
    solution = references_of(task) if window.shows_references else ""
    return Offered(
        task.label,
        task.title,
        question(task),
        name,
        digest(task.reference),
        solution,
        bool(task.fault),
    )


def rows_of(table: Table, content: bytes) -> Rows:
    """The rows of a CSV file that `ratest` has read; an empty field is NULL."""
    lines = list(csv.reader(io.StringIO(content.decode("utf-8-sig", "replace"), newline="")))[1:]
    return Rows(
        table.name,
        tuple(column.name for column in table.columns),
        tuple(map(cells, lines[:MOST_ROWS])),
        len(lines),
    )


def cells(line: Sequence[str]) -> tuple[str | None, ...]:
    return tuple(cell or None for cell in line)
