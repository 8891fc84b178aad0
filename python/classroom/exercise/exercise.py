"""An exercise: a folder with `schema.sql`, a CSV file a table, and one folder a task with
`reference.sql` and `answers/*.sql`; or with a single task at the top.

All of it is read once, so everything that is made of it is made of the same bytes. A fault of the
whole is a Fault of one line. One of a single task or answer is kept with it, so that the others are
graded all the same. """
from __future__ import annotations

import hashlib
import os
import re
import stat
from collections.abc import Iterator, Mapping
from dataclasses import dataclass, field, replace
from pathlib import Path

from classroom.base import files as reading
from classroom.exercise import settings
from classroom.sql import clean as texts
from classroom.base.errors import Fault, shown, visible
from classroom.base.files import Folder, NotRead
from classroom.sql.schema import Table, tables_of
from classroom.exercise.settings import Settings, TaskSettings
from classroom.sql.clean import CleanText
from classroom.sql.tokens import Dialect
from classroom.exercise.importing.snapshot import SCRIPT
from classroom.exercise.typed_rows import POSTGRESQL, SQLITE, product_of

RESULTS = "results"
REFERENCE, ANSWERS = "reference.sql", "answers"
# Further right queries of a task, reference-2.sql to reference-9.sql.
OTHER_REFERENCE = re.compile(r"reference-([2-9])\.sql")
# One byte more than `ratest` reads of a text: what is longer is as long.
MOST_BYTES = 4_194_305


@dataclass(frozen=True)
class Answer:
    """A file NAME.sql of a student."""

    name: str
    text: CleanText = CleanText()
    fault: str = ""  # why it is not read; then the text is empty

    @property
    def label(self) -> str:
        """The name as UTF-8."""
        return visible(self.name)


@dataclass(frozen=True)
class Task:
    """A reference query and the answers to it."""

    name: str
    folder: Path
    answers: tuple[Answer, ...] = ()
    reference: bytes = b""  # without what tools put around a query
    fault: str = ""  # why no answer can be graded
    limit: str = ""  # that the reference alone passes over these rows
    settings: TaskSettings = TaskSettings()
    remarks: tuple[str, ...] = ()  # on the text of the reference
    source: str = REFERENCE  # the file of the reference
    others: tuple[Task, ...] = ()  # the task with each further reference, and without answers

    @property
    def references(self) -> tuple[Task, ...]:
        """The task by each of its right queries, in the order of their files."""
        return (self, *self.others)

    def with_settings(self, said: TaskSettings) -> Task:
        others = tuple(replace(other, settings=said) for other in self.others)
        return replace(self, settings=said, others=others)

    @property
    def label(self) -> str:
        return visible(self.name)

    @property
    def title(self) -> str:
        """As pages name it."""
        return f"{self.label}: {self.settings.title}" if self.settings.title else self.label


@dataclass(frozen=True)
class Exercise:
    """A schema, its rows, and the tasks in the order of their names."""

    folder: Path
    tasks: tuple[Task, ...]
    ignored: tuple[Path, ...]  # files among the answers that are none, by their names
    files: Mapping[
        str, bytes
    ]  # schema.sql and the CSV file of each table, by their names in the folder
    tables: tuple[Table, ...]  # none where they can't be read of the schema
    settings: Settings = field(default_factory=Settings)
    dialect: Dialect = Dialect.SQLITE  # of its texts

    @property
    def results(self) -> Path:
        return self.folder / RESULTS

    @property
    def title(self) -> str:
        return self.settings.title or visible(self.folder.resolve().name)

    @property
    def digest(self) -> str:
        """Of the schema and the rows."""
        return digest_of(self.files)


def load(folder: Path) -> Exercise:
    """The exercise in a folder."""
    if not folder.is_dir():
        raise Fault(f"there is no folder {shown(str(folder))}")
    if not (folder / "schema.sql").is_file():
        raise Fault(f"{shown(str(folder))}: no file schema.sql")
    tasks, ignored = tasks_of(folder)
    if not tasks:
        raise Fault(f"{shown(str(folder))}: no task: neither reference.sql nor a folder with one")
    said = settings.read(folder, [task.name for task in tasks])
    tasks = tuple(task.with_settings(said.of_task(task.name)) for task in tasks)
    schema = read(folder / "schema.sql")
    try:
        tables = tables_of(schema.decode("utf-8", "replace"))
    except Fault:
        tables = ()  # `ratest`, which is asked before anything else, tells the place
    return Exercise(
        folder,
        tasks,
        ignored,
        {"schema.sql": schema, **dict(_rows(folder, tables))},
        tables,
        said,
        dialect_of(folder),
    )


def dialect_of(folder: Path) -> Dialect:
    """In which the texts of an exercise are read: that of its engine, else of what `import`
    kept."""
    try:
        product = product_of(settings.engine_of(folder))
    except Fault:
        product = POSTGRESQL if (folder / SCRIPT).is_file() else SQLITE
    return Dialect.POSTGRESQL if product == POSTGRESQL else Dialect.SQLITE


def _rows(folder: Path, tables: tuple[Table, ...]) -> Iterator[tuple[str, bytes]]:
    for table in tables:
        name = f"{table.name}.csv"
        if "/" in table.name or "\0" in table.name:
            raise Fault(f"{shown(table.name)}: no file can have the name of this table")
        if not (folder / name).is_file():
            raise Fault(
                f"{shown(str(folder))}: the table {shown(table.name)} has no file {shown(name)}"
            )
        yield name, read(folder / name)


def tasks_of(folder: Path) -> tuple[tuple[Task, ...], tuple[Path, ...]]:
    """The tasks in a folder, which may be none, and the files among the answers that are no
    answers."""
    ignored: list[Path] = []
    with reading.opened(folder) as top:
        tasks = tuple(_tasks(folder, top, ignored, dialect_of(folder)))
    seen: dict[str, str] = {}
    for task in tasks:
        other = seen.setdefault(task.label.casefold(), task.name)
        if other != task.name:
            raise Fault(f"two tasks of one name: {shown(other)} and {shown(task.name)}")
    return tasks, tuple(ignored)


def _tasks(folder: Path, top: Folder, ignored: list[Path], dialect: Dialect) -> Iterator[Task]:
    inner = [
        name
        for name in sorted(top.names(), key=in_order)
        if name not in (RESULTS, ANSWERS)
        and not name.startswith(".")
        and top.is_folder(name)
        and any(os.path.lexists(folder / name / part) for part in (REFERENCE, ANSWERS))
    ]
    if top.holds(REFERENCE) or top.holds(ANSWERS):
        if inner:
            raise Fault(
                f"{shown(str(folder))}: a task at the top and tasks in folders, as"
                f" {shown(inner[0])}"
            )
        yield _task(folder.resolve().name or "task", folder, top, ignored, dialect)
    for name in inner:
        try:
            with top.folder(name) as own:
                yield _task(name, folder / name, own, ignored, dialect)
        except NotRead as fault:
            yield Task(name, folder / name, fault=f"{shown(str(folder / name))}: {fault}")


def _task(name: str, folder: Path, own: Folder, ignored: list[Path], dialect: Dialect) -> Task:
    task, answers = _with_reference(name, folder, REFERENCE, dialect), []
    others = tuple(
        _with_reference(name, folder, file, dialect)
        for file in sorted(own.names())
        if OTHER_REFERENCE.fullmatch(file)
    )
    fault = task.fault
    if own.holds(ANSWERS):
        try:
            with own.folder(ANSWERS) as place:
                for file in sorted(place.names(), key=in_order):
                    if file.endswith(".sql") and not file.startswith("."):
                        answers.append(_answer(file, place, dialect))
                    else:
                        ignored.append(folder / ANSWERS / file)
        except NotRead as why:
            fault = fault or f"{ANSWERS}: {why}"
    return replace(task, answers=tuple(answers), fault=fault, others=others)


def _with_reference(name: str, folder: Path, file: str, dialect: Dialect) -> Task:
    """The task by the reference in one file."""
    fault, text = "", CleanText()
    try:
        text = _reference(read(folder / file), dialect)
    except FileNotFoundError:
        fault = f"no file {file}"
    except OSError as why:
        fault = f"{file}: {why.strerror}"
    except NotRead as why:
        fault = f"{file}: {why}"
    return Task(name, folder, (), text.query, fault, remarks=text.remarks, source=file)


def _reference(raw: bytes, dialect: Dialect) -> CleanText:
    """The text of a reference, which may be longer than an answer."""
    if len(raw) > texts.MOST_BYTES:
        return CleanText(raw, raw)
    return texts.text_of(raw, dialect)


def _answer(file: str, place: Folder, dialect: Dialect) -> Answer:
    name = file.removesuffix(".sql")
    try:
        return Answer(name, texts.text_of(place.read(file, texts.MOST_BYTES + 1), dialect))
    except NotRead as fault:
        return Answer(name, fault=str(fault))


def in_order(name: str) -> tuple[list[int | str], str]:
    """The order of names, with the numbers in them by size: 9a goes before 10a."""
    parts = re.split("([0-9]+)", name)
    return [int(part) if at % 2 else part for at, part in enumerate(parts)], name


def read(path: Path) -> bytes:
    """The bytes of a file of the teacher's, one more than `ratest` reads at most; OSError where it
    is none."""
    if not stat.S_ISREG(os.stat(path).st_mode):
        raise OSError(0, "not a file", os.fspath(path))
    with open(path, "rb") as file:
        return file.read(MOST_BYTES)


def digest(*parts: bytes) -> str:
    """One digest of several texts, each with its length."""
    whole = hashlib.sha256()
    for part in parts:
        whole.update(b"%d " % len(part))
        whole.update(part)
    return whole.hexdigest()


def digest_of(files: Mapping[str, bytes]) -> str:
    """One digest of files with their names."""
    return digest(
        *(
            part
            for name, text in files.items()
            for part in (name.encode("utf-8", "surrogateescape"), text)
        )
    )
