"""Tries the answers of an exercise that `ratest` leaves open, and says of those that agree what
differs in duplicates or order.

A database answers, so what comes of it is called tried wherever it is shown, and never proved.
"""
from __future__ import annotations

import argparse
import json
import logging
import re
import sqlite3
from collections.abc import Callable, Iterator, Mapping
from concurrent.futures import as_completed
from dataclasses import dataclass, replace
from functools import cached_property
from pathlib import Path
from typing import NamedTuple

from classroom.verdict import witness
from classroom.exercise.importing.snapshot import DATABASE, SCRIPT
from classroom.exercise.exercise import Answer, Exercise, Task, digest
from classroom.base.errors import Fault, library, shown
from classroom.process.limits import Ran
from classroom.exercise.rows import Pool
from classroom.exercise.shown_columns import with_hidden
from classroom.exercise.sources import of_exercise
from classroom.grading.decide import is_open
from classroom.exercise.settings import Settings
from classroom.engines import run_child as asking
from classroom.exercise import material as full
from classroom.exercise import same_rows
from classroom.exercise import typed_rows as material
from classroom.engines.run_child import Failed, Options
from classroom.exercise.typed_rows import POSTGRESQL, SQLITE, Material, product_of
from classroom.sql.tokens import tokens
from classroom.verdict.verdict import Cause, Refusal, Verdict

FORMAT = b"trial 4"
# For one answer, if `--time` isn't less; `ratest` was asked before.
SECONDS = 10.0
LEAST_SECONDS = 0.5
FULL = (DATABASE, SCRIPT)
log = logging.getLogger(__name__)


def add_arguments(parser: argparse.ArgumentParser) -> None:
    parser.add_argument(
        "--only-proved",
        action="store_true",
        help="try nothing: only what `ratest` proves has a verdict",
    )
    parser.add_argument(
        "--engine",
        metavar="ENGINE",
        help=(
            "what tries the answers that `ratest` doesn't decide: sqlite, or the "
            "connection of an empty database of PostgreSQL; else as exercise.toml says"
        ),
    )


@dataclass(frozen=True)
class Trial:
    """How the answers of an exercise are tried."""

    material: Material
    options: Options
    rest: tuple[
        object, ...
    ]  # of what decides a verdict what is neither of the material nor of the two queries
    reports: bool  # whether what differs in duplicates or order is looked for
    names: frozenset[str] = frozenset()  # that the database has, and the material may not have

    @cached_property
    def digest(self) -> str:
        """Of all that decides a verdict but the two queries."""
        whole = json.dumps(
            [material.to_json(self.material), self.options.seconds, self.options.looks, *self.rest]
        )
        return digest(FORMAT, whole.encode("utf-8", "surrogatepass"))

    def over(self, rows: Material) -> Trial:
        """The same over other rows."""
        return replace(self, material=rows)

    def key(self, task: Task, answer: Answer, agrees: bool) -> str:
        return digest(
            self.digest.encode(), task.reference, answer.text.query, b"agrees" if agrees else b""
        )

    def asked(self, task: Task, answer: Answer) -> bool:
        """Whether there are two texts."""
        return bool(task.reference) and not answer.fault


def has_full(folder: Path) -> bool:
    """Whether the folder has its tables as the database had them."""
    return any((folder / name).is_file() for name in FULL)


def trial_of(given: Exercise, seconds: float, engine: str | None = None) -> Trial:
    """How the answers of this exercise are tried; a Fault where that can't be."""
    held = whole = full.read(given.folder)
    rows = same_rows.rows_of(given.files, given.tables)
    if held and (where := same_rows.difference(held, given.tables, rows)):
        log.warning(full.OTHER_ROWS, where)
        held = None
    if held:
        held = with_hidden(held, given.tables)
    made = trial_over(held, lambda: of_exercise(given.folder), given.settings, seconds, engine)
    if whole is None or made.material is held:
        return made
    names = names_of(whole)
    return replace(made, names=names, rest=(*made.rest, *sorted(names)))


def names_of(held: Material) -> frozenset[str]:
    """The names of a database's tables, columns and views, and those in its views, folded."""
    tables = [of.table for of in held.pool.held]
    words = [token.name for view in held.views for token in tokens(view.statement)]
    columns = [column.name for table in tables for column in table.columns]
    views = [view.name for view in held.views]
    return frozenset(map(str.casefold, (*words, *columns, *views, *(of.name for of in tables))))


# As SQLite and PostgreSQL name a table or a column that they don't have.
NOWHERE = re.compile(
    r'no such (?:table|column): (.+)\Z|(?:relation|column) "?([^"]+)"? does not exist\Z', re.DOTALL
)


def with_names(found: Verdict, names: frozenset[str]) -> Verdict:
    """A verdict for which no name is nowhere that the database has."""
    refusal = found.outcome
    if not names or not isinstance(refusal, Refusal) or refusal.cause != Cause.NAME:
        return found
    named = NOWHERE.match(refusal.message)
    name = (named[1] or named[2]).split(".")[-1] if named else ""
    if name.casefold() not in names:
        return found
    return replace(found, outcome=replace(refusal, cause=Cause.HELD))


def trial_over(
    held: Material | None,
    plain: Callable[[], Pool],
    said: Settings,
    seconds: float,
    engine: str | None = None,
) -> Trial:
    """How is tried over the rows as a database had them; where there are none of the engine's
    product, over the plain rows of the CSV files."""
    library("sqlglot", "python3-sqlglot")
    word = engine or said.engine or (held.product if held else SQLITE)
    product = product_of(word)
    if held is None or held.product != product:
        held = material.of_schema(plain(), product)
    if product == POSTGRESQL and (word == POSTGRESQL or not said.engine_asker):
        raise Fault(
            "exercise.toml: engine and engine_asker: the connections of two roles of PostgreSQL are"
            " wanted, as docs/SERVER.md tells"
        )
    wants = [said.duplicates == "wrong", said.order == "wrong"]
    loader, asker = (word, said.engine_asker) if product == POSTGRESQL else ("", "")
    options = Options(max(LEAST_SECONDS, min(SECONDS, seconds)), wants[0], wants[1], loader, asker)
    rest = (
        *wants,
        said.duplicates,
        said.order,
        word,
        sqlite3.sqlite_version if product == SQLITE else "",
    )
    return Trial(held, options, rest, {said.duplicates, said.order} != {"ignore"})


def wanted(arguments: argparse.Namespace, given: Exercise, seconds: float) -> Trial | None:
    """How they are tried by the options of a command; None where nothing is to be tried, or can't
    be, which is told."""
    if arguments.only_proved:
        return None
    try:
        return trial_of(given, seconds, arguments.engine)
    except Fault as fault:
        log.warning("nothing is tried: %s", fault)
        return None


@dataclass(frozen=True)
class Question:
    """A pair that is tried; of one that agrees, as proved, only duplicates and order are looked
    at."""

    task: Task
    answer: Answer
    key: str
    agrees: bool

    @property
    def pair(self) -> Pair:
        return Pair(
            self.task.reference,
            self.answer.text.query,
            f"task {shown(self.task.label)}: the answer {shown(self.answer.label)}",
            self.agrees,
        )


class Pair(NamedTuple):
    """Two queries with the words by which they are told."""

    reference: bytes
    text: bytes
    label: str
    agrees: bool = False


def question(
    trial: Trial, task: Task, answer: Answer, ran: Ran | None, given: Exercise
) -> Question | None:
    """What is tried of an answer by its run; None where nothing is."""
    if not trial.asked(task, answer):
        return None
    outcome = witness.read(ran, given.tables) if ran else None
    agrees = isinstance(outcome, witness.Agree)
    if not (trial.reports if agrees else task.fault or outcome and is_open(outcome)):
        return None
    return Question(task, answer, trial.key(task, answer, agrees), agrees)


def verdicts(
    trial: Trial, asked: Mapping[str, Pair], jobs: int | None
) -> Iterator[tuple[str, Verdict]]:
    """The verdicts by the keys of the pairs, as they come. An engine that can't be had ends it with
    a Fault; a question whose process fails has no verdict, which is told."""
    with asking.trier(trial.material, trial.options) as trier, asking.threads(
        trier, jobs
    ) as threads:

        def one(key: str, of: Pair) -> tuple[str, Verdict | Failed]:
            try:
                return key, trier.ask(text_of(of.reference), text_of(of.text), of.agrees)
            except Failed as fault:
                return key, fault

        for future in as_completed([threads.submit(one, *item) for item in asked.items()]):
            key, found = future.result()
            if isinstance(found, Verdict):
                yield key, with_names(found, trial.names)
            else:
                log.warning("%s is not tried: %s", asked[key].label, found)


def text_of(query: bytes) -> str:
    """A query as an engine takes it: one statement without its end."""
    return query.decode("utf-8", "replace").removeprefix("\ufeff").strip().removesuffix(";").strip()
