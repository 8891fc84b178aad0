"""Makes the usual mistakes in each task's reference query, and tells which of them the rows show.

A mutant is the reference with one mistake: another comparison, a condition dropped, AND for OR, NOT
dropped or added, a constant one higher or lower, another column, a join condition dropped, JOIN for
EXISTS or IN and back, IN for NOT IN, UNION, EXCEPT and INTERSECT for one another, IS NULL for =
NULL, a column of SELECT dropped or exchanged. Of a reference that `ratest` doesn't read also
another aggregate, DISTINCT in one, HAVING, GROUP BY, LIMIT, the order, an outer join for a join and
back; these a database tries. What is refused is left out. All of them are graded against the
reference; those that agree with it are shown: such a query means the same on every lawful part of
these rows, so either it is right or the rows lack something.

EXERCISE/mutants/mutants.csv tells all of them. What is stopped, or killed, goes on where it was.

Exit status: 0 where every mutant has a verdict, 1 where one has none or a task could not be tried,
which standard error tells, 2 for words that can't be read. """
from __future__ import annotations

import argparse
import logging
import sys
from collections.abc import Sequence

from classroom.grading import open as opening
from classroom.commands import options
from classroom.engines import ratest as program
from classroom.process import pool as parallel
from classroom.grading import trials as tried
from classroom.exercise.exercise import Task
from classroom.base.errors import Fault, library, shown
from classroom.base.files import write
from classroom.grading.store import Results

SUMMARY = "tell which usual mistakes the rows show"
log = logging.getLogger(__name__)


def add_arguments(parser: argparse.ArgumentParser) -> None:
    options.exercise(parser)
    parser.add_argument("--task", metavar="T", help="of this task alone")
    options.jobs(parser)
    options.build(parser, "ratest", "ratest_plus")
    options.limits(parser, "a mutant", 60)
    tried.add_arguments(parser)


def run(arguments: argparse.Namespace) -> int:
    library("sqlglot", "python3-sqlglot")
    from classroom.mutants import proofs as grading
    from classroom.mutants import question as questions
    from classroom.mutants import mutants_csv as told
    from classroom.mutants import mutant_trials as trying

    opened = opening.opened(arguments, 60.0)
    given = opened.given
    chosen = named(given.tasks, arguments.task)
    trial = tried.wanted(arguments, given, opened.limits.seconds)
    by_trying = [task for task in chosen if trial and task.reference and (task.fault or task.limit)]
    tasks = [task for task in chosen if task not in by_trying and is_tried(task)]
    asked = {}
    for task in tasks[:]:
        try:
            asked[task.label] = questions.of_mutants(task, given.tables)
        except Fault as fault:
            log.warning("%s", fault)
            tasks.remove(task)
    means = parallel.Means(opened.limits, arguments.jobs, None, sys.stderr.isatty())
    results = Results(given.folder / "mutants")
    with results.held() as work:
        verdicts = grading.Verdicts(results.runs, given.files, opened.options)
        program.told_proved(verdicts.program, arguments.only_proved)
        back = {task.label: questions.written_back(task) for task in tasks}
        found = verdicts.grade(
            [*back.values(), *(of for one in asked.values() for of in one)], means, work
        )
        for label, of in back.items():
            try:
                told.check_written_back([of], [found[verdicts.key(of)]])
            except Fault as fault:
                log.warning("%s", fault)
                del asked[label]
        made = [told.Judged(of, found[verdicts.key(of)]) for one in asked.values() for of in one]
        for task in by_trying:
            try:
                assert trial
                tried_task = trying.mutants(trial, task, given.settings, results, arguments.jobs)
                made += tried_task.judged
                asked[task.label] = []
                for line in tried_task.doubts:
                    log.warning("task %s: %s", shown(task.label), shown(line))
            except Fault as fault:
                log.warning("%s", fault)
        write(results.folder / "mutants.csv", told.csv_of(made))
    for line in told.lines([task.label for task in chosen if task.label in asked], made):
        print(line)
    print(f"{told.summary(made)} by {told.rows_of(given.files)} rows", flush=True)
    missing = told.open_ones(made)
    if missing:
        log.warning("%d mutants have no verdict", missing)
    return 1 if missing or len(asked) < len(chosen) else 0


def is_tried(task: Task) -> bool:
    """Whether its mutants are tried; a reference that passes a limit alone is told in one line."""
    if task.limit:
        log.warning(
            "task %s: the reference alone passes a limit, so no mutant is tried: %s",
            shown(task.name),
            shown(task.limit),
        )
    return not (task.fault or task.limit)


def named(tasks: Sequence[Task], name: str | None) -> Sequence[Task]:
    """All of the tasks, or the one of this name."""
    found = [task for task in tasks if name is None or name in (task.name, task.label)]
    if not found:
        raise Fault(f"there is no task {shown(name or '')}")
    return found
