"""Opens an exercise for whatever asks `ratest` about it: the program, the limits, and which tasks
can be graded.

A reference that is refused stops its own task alone; of it `Task.fault` tells why.
"""
from __future__ import annotations

import argparse
import logging
import tempfile
from collections.abc import Sequence
from dataclasses import dataclass, replace
from pathlib import Path

from classroom.exercise import exercise
from classroom.engines import ratest as program
from classroom.verdict import witness
from classroom.exercise.exercise import Exercise, Task
from classroom.base.errors import Fault, shown
from classroom.base.files import fill
from classroom.process.limits import Limits, Ran
from classroom.grading.trials import has_full
from ratest import printed

# For a reference against itself.
REFERENCE_SECONDS = 10.0
log = logging.getLogger(__name__)


@dataclass(frozen=True)
class Opened:
    """An exercise with what is needed to ask about it."""

    given: Exercise
    ratest: Path
    limits: Limits
    work: int | None
    conflicts: int | None
    is_proved: bool = True

    @property
    def options(self) -> tuple[str, ...]:
        """Of `ratest`."""
        return options_of(self.work, self.conflicts)


def options_of(work: int | None, conflicts: int | None) -> tuple[str, ...]:
    return tuple(
        word
        for name, value in (("work", work), ("conflicts", conflicts))
        if value
        for word in (f"--{name}", str(value))
    )


def opened(arguments: argparse.Namespace, seconds: float, conflicts: int | None = None) -> Opened:
    """The exercise that the words of a command name, each of its references tried.

    `seconds` and `conflicts` hold where neither the words nor `exercise.toml` say another number.
    """
    given = exercise.load(arguments.exercise)
    said = given.settings
    work, conflicts = (
        arguments.work or said.work,
        arguments.conflicts or said.conflicts or conflicts,
    )
    limits = Limits(arguments.time or said.time or seconds, arguments.memory)
    ratest = program.find()
    tries = not getattr(arguments, "only_proved", True)
    is_proved = program.told_proved(ratest, getattr(arguments, "only_proved", False))
    made = Opened(
        asked(given, ratest, limits, options_of(work, conflicts), tries and has_full(given.folder)),
        ratest,
        limits,
        work,
        conflicts,
        is_proved,
    )
    for task in made.given.tasks:
        for one in task.references:
            tell(one, tries)
    return made


def tell(task: Task, tries: bool) -> None:
    """Tells what is to be said of a reference."""
    for remark in task.remarks:
        log.warning("task %s: %s: %s", shown(task.name), task.source, remark)
    if task.fault:
        is_tried = tries and task.reference
        log.log(
            logging.INFO if is_tried else logging.WARNING,
            "task %s is not %s: %s",
            shown(task.name),
            "proved" if is_tried else "graded",
            shown(task.fault),
        )


def asked(
    given: Exercise, ratest: Path, limits: Limits, options: Sequence[str], goes_on: bool = False
) -> Exercise:
    """The exercise with what is found of each reference. Where the schema or a row is refused, it
    is a Fault; if it goes on it is that of each task."""
    limits = limits._replace(seconds=min(limits.seconds, REFERENCE_SECONDS))
    with tempfile.TemporaryDirectory(prefix="classroom-") as name:
        work = Path(name)
        for file, text in given.files.items():
            fill(work / file, text)

        def one(task: Task) -> Task:
            # Not the name of a table's file.
            fill(work / "reference", task.reference)
            ran = program.run(
                ratest, ["schema.sql", ".", "reference", "reference", *options], limits, work
            )
            return found(given, task, ran, options, goes_on)

        tasks = [replace(one(task), others=tuple(map(one, task.others))) for task in given.tasks]
    return replace(given, tasks=tuple(tasks))


def found(given: Exercise, task: Task, ran: Ran, options: Sequence[str], goes_on: bool) -> Task:
    """The task with what its reference against itself came to."""
    if ran.status == printed.USAGE:
        raise Fault(f"`ratest` doesn't take {' '.join(options)}")
    outcome = witness.read(ran, given.tables)
    if isinstance(outcome, witness.Died) and ran.status != printed.FILE_FAULT:
        raise Fault(
            f"nothing is graded: {outcome.how}, at the reference of task {shown(task.name)}"
        )
    line = ran.stderr.decode("utf-8", "replace").strip().removeprefix("ratest: ")
    if isinstance(outcome, witness.Refused) and (
        outcome.part == "schema" or outcome.part.startswith("table ")
    ):
        if not goes_on:
            raise Fault(f"{shown(str(given.folder))}: {shown(line)}")
        return task if task.fault else replace(task, fault=line)
    if task.fault:
        return task
    if isinstance(outcome, witness.Refused):
        return replace(task, fault=f"{task.source}: {outcome.fault}")
    if isinstance(outcome, witness.Limit):
        return replace(task, limit=outcome.fault)
    if ran.passed:
        return replace(task, limit=f"the limit of {ran.passed}")
    if ran.status == printed.FILE_FAULT:
        return replace(task, fault=f"{task.source}: {line}")
    return task
