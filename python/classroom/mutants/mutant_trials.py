"""Mutants of a reference that `ratest` doesn't read, told by a database."""
from __future__ import annotations

from collections.abc import Iterable, Mapping, Sequence
from dataclasses import replace
from typing import NamedTuple

from classroom.exercise.exercise import Task, digest
from classroom.base.errors import Fault, shown
from classroom.mutants import question as questions
from classroom.edits.families import BAGS, LISTS, MISTAKES, TRIED
from classroom.mutants.proofs import NOT_DETERMINED, NOT_FOUND, OPEN, REFUSED, TOLD, Verdict
from classroom.mutants.question import Question
from classroom.mutants.mutants_csv import Judged
from classroom.grading.store import Results
from classroom.sql.schema import Table
from classroom.exercise.settings import Settings
from classroom.verdict import verdict
from classroom.verdict import sentences as words
from classroom.verdict.verdict import Cause, Differs, NoDifference, NotDetermined
from classroom.grading.trials import Pair, Trial, verdicts


class OfTask(NamedTuple):
    """The mutants of a task with their verdicts, and what is told of its reference alone."""

    judged: list[Judged]
    doubts: list[str]


def mutants(trial: Trial, task: Task, said: Settings, results: Results, jobs: int | None) -> OfTask:
    """A Fault where the mutants of a task can't be made or tried."""
    back, made = of_task(task, [held.table for held in trial.material.pool.held], said)
    same = asked(trial, [back], results, jobs).get(back)
    check_back(task, same)
    found = asked(trial, made, results, jobs)
    return OfTask(
        told(made, found), words.doubts((task.source, one) for one in (same, *found.values()))
    )


def of_task(task: Task, tables: Sequence[Table], said: Settings) -> tuple[Question, list[Question]]:
    """A task's reference as it is written back, and its mutants; a Fault where they can't be made.
    Those of duplicates and of order are made where these count."""
    families = (
        *MISTAKES,
        *TRIED,
        *(BAGS if said.duplicates == "wrong" else ()),
        *(LISTS if said.order == "wrong" else ()),
    )
    made = questions.of_mutants(task, tables, families)
    return tried(questions.written_back(task)), [tried(of) for of in made]


def tried(of: Question) -> Question:
    return replace(of, is_tried=True)


def check_back(task: Task, found: verdict.Verdict | None) -> None:
    """A Fault where the reference can't be tried, or sqlglot doesn't write it back as it means."""
    if found and isinstance(found.outcome, Differs):
        raise Fault(f"task {shown(task.name)}: sqlglot writes reference.sql back as another query")
    if not found or not isinstance(found.outcome, (NoDifference, NotDetermined)):
        of = told_of(found)
        raise Fault(f"task {shown(task.name)}: reference.sql: {of.why or of.kind}")


def keys(trial: Trial, made: Iterable[Question]) -> dict[Question, str]:
    """The keys of the records."""
    return {of: digest(trial.digest.encode(), of.reference, of.text) for of in made}


def asked(
    trial: Trial, made: Sequence[Question], results: Results, jobs: int | None
) -> dict[Question, verdict.Verdict]:
    """The verdicts that are kept, and those of the database; none where its process failed, which
    is told."""
    known = keys(trial, made)
    left = {
        key: Pair(of.reference, of.text, f"task {shown(of.label)}")
        for of, key in known.items()
        if results.trial(key) is None
    }
    for key, new in verdicts(trial, left, jobs) if left else ():
        results.keep_trial(key, new)
    return {of: found for of, key in known.items() if (found := results.trial(key))}


def told(made: Sequence[Question], found: Mapping[Question, verdict.Verdict]) -> list[Judged]:
    return [Judged(of, told_of(found.get(of))) for of in made]


def told_of(found: verdict.Verdict | None) -> Verdict:
    """A verdict of a database as one of a mutant."""
    if found is None:
        return Verdict(OPEN, why="its process failed")
    of = found.outcome
    if isinstance(of, Differs):
        return Verdict(TOLD, len(of.kept), engine=found.engine)
    if isinstance(of, NoDifference):
        return Verdict(NOT_FOUND, engine=found.engine)
    if isinstance(of, NotDetermined):
        return Verdict(NOT_DETERMINED, engine=found.engine)
    return Verdict(
        OPEN if of.cause == Cause.LIMIT else REFUSED, why=words.refusal(of, found.engine)
    )
