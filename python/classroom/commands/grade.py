"""Grades every answer of every task of an exercise, each by its own call of `ratest`. What that
doesn't decide a database tries: both queries run on parts of the rows.

EXERCISE is a folder with schema.sql, a CSV file a table, and one folder a task, which has
reference.sql and the folder answers with one file NAME.sql an answer; or with reference.sql and
answers at the top. Beside reference.sql there may be further right queries, reference-2.sql to
reference-9.sql: what agrees with one of them is right, and else the nearest is compared with. The
file exercise.toml, where there is one, says points and limits.

Into EXERCISE/results go grades.csv, class.csv with a line a student, results.json for an autograder
as Gradescope reads it, teacher.html, students.html, for each answer tasks/TASK/ANSWER.txt with its status and what
was printed, and in runs the record of each call. Answers whose bytes are the same are run once.
What is stopped, or killed, goes on where it was: a record that is there is not made again, unless
the answer, the reference, the schema, a row, the program, --work or --conflicts is another.

Exit status: 0 where every answer has a score, 1 where some are to be graded by hand, which a list
at the end tells, or nothing could be graded, which standard error tells, 2 for words that can't be
read. """
from __future__ import annotations

import argparse
import logging
import sys
from collections.abc import Iterable, Sequence
from dataclasses import dataclass, replace
from pathlib import Path

from classroom.grading import graded as graded_answers
from classroom.grading import grades_files
from classroom.grading import open as opening
from classroom.commands import options
from classroom.commands.book import book_of, tell_notes, write_pages
from classroom.process import pool as parallel
from classroom.marks import mark_files
from classroom.marks.gradebook import Gradebook, check_marks
from classroom.people import roster as students
from classroom.base import log as telling
from classroom.grading import trials as tried
from classroom.exercise import same_rows
from classroom.exercise.exercise import Answer, Exercise, Task, digest
from classroom.base.errors import Fault, Missing, shown
from classroom.grading.open import Opened
from classroom.grading.graded import Graded
from classroom.grading.nearest import nearest
from classroom.grading.store import Results, trial_name
from classroom.grading.trials import Trial
from classroom.sql.clean import CleanText
from ratest.draw import counted

SUMMARY = "grade the answers of a class"
FORMAT = b"1"
log = logging.getLogger(__name__)


def add_arguments(parser: argparse.ArgumentParser) -> None:
    options.exercise(parser)
    options.jobs(parser, ", on each machine")
    options.build(parser, "ratest")
    parser.add_argument(
        "--hosts",
        metavar="FILE",
        type=Path,
        help="grade on these hosts; FILE is an --sshloginfile of GNU parallel",
    )
    options.limits(parser, "an answer", 60)
    tried.add_arguments(parser)


@dataclass(frozen=True)
class Entry:
    """An answer with the key of its run; empty where it isn't run."""

    task: Task  # by one of its references
    answer: Answer
    key: str


def run(arguments: argparse.Namespace) -> int:
    opened = opening.opened(arguments, 60.0)
    given = opened.given
    for path in given.ignored:
        log.warning(
            "%s is not graded: its name is not that of an answer, NAME.sql",
            shown(str(path.relative_to(given.folder))),
        )
    if given.tables and not any(same_rows.rows_of(given.files, given.tables).values()):
        log.warning(
            "no table has a row: whatever returns nothing agrees with a reference that returns nothing"
        )
    answers = entries_of(opened, given.tasks)
    references = entries_of(opened, map(against_others, given.tasks))
    entries = [*answers, *references]
    trial = tried.wanted(arguments, given, opened.limits.seconds)
    listed = students.read(given.folder / given.settings.students)
    check_marks(given)
    results = Results(given.results)
    with results.held() as work:
        means = parallel.Means(opened.limits, arguments.jobs, arguments.hosts, sys.stderr.isatty())
        run_all(opened, entries, results, means, work)
        trials = try_all(trial, given, entries, results, means.jobs) if trial else {}

        def graded_of(some: Sequence[Entry]) -> list[Graded]:
            return [
                results.graded_one(of.task, of.answer, given, of.key, trials.get(id(of), ""))
                for of in some
            ]

        graded, between = nearest_of(graded_of(answers)), graded_of(references)
        book = book_of(given, graded, listed)
        results.publish(given, graded, mark_files.tables(book), between)
        publish_pages(results, book)
    for line in grades_files.differing(between):
        log.warning("%s", line)
    return tell(book)


def against_others(task: Task) -> Task:
    """The task with its further references as answers to its first."""
    further = tuple(
        Answer(other.source, CleanText(other.reference, other.reference))
        for other in task.others
        if other.reference
    )
    return replace(task, answers=further, others=())


def nearest_of(graded: Sequence[Graded]) -> list[Graded]:
    """The grade of each answer, of those against each reference."""
    found: dict[tuple[str, str], list[Graded]] = {}
    for of in graded:
        found.setdefault((of.task.name, of.answer.name), []).append(of)
    return list(map(nearest, found.values()))


def entries_of(opened: Opened, tasks: Iterable[Task]) -> list[Entry]:
    """The answers to these tasks, each with every reference of its task."""
    common = digest(
        FORMAT,
        opened.ratest.read_bytes(),
        opened.given.digest.encode(),
        *(word.encode() for word in opened.options),
    )
    return [
        Entry(
            by,
            answer,
            (
                ""
                if by.fault or answer.fault
                else digest(common.encode(), by.reference, answer.text.query)
            ),
        )
        for task in tasks
        for answer in task.answers
        for by in task.references
    ]


def run_all(
    opened: Opened, entries: Sequence[Entry], results: Results, means: parallel.Means, work: Path
) -> None:
    """Runs what has no record yet."""
    given = opened.given
    keys = {of.key: of for of in entries if of.key}
    results.will_write(f"runs/{key}.json" for key in keys)
    pending = {key: of for key, of in keys.items() if not results.is_final(key, opened.limits)}
    if len(pending) < len(keys):
        log.info("%d of the runs are kept from before", len(keys) - len(pending))
    asked = [by for task in given.tasks for by in task.references]
    references = {(by.name, by.source): f"{at}.reference" for at, by in enumerate(asked)}
    jobs = []
    for key, of in pending.items():
        files = (references[of.task.name, of.task.source], f"{key}.answer")
        jobs.append(parallel.Job(key, ("schema.sql", ".", *files, *opened.options), files))
    texts = {
        **{references[by.name, by.source]: by.reference for by in asked},
        **{f"{key}.answer": of.answer.text.query for key, of in pending.items()},
    }
    for key, ran in parallel.run(jobs, {"ratest": opened.ratest}, given.files, texts, means, work):
        results.keep(key, ran, opened.limits, opened.is_proved)


def try_all(
    trial: Trial, given: Exercise, entries: Sequence[Entry], results: Results, jobs: int | None
) -> dict[int, str]:
    """Tries what has no record yet; gives the keys of the records by the entries."""
    questions = {
        id(of): tried.question(
            trial, of.task, of.answer, results.run(of.key) if of.key else None, given
        )
        for of in entries
    }
    asked = {of.key: of for of in questions.values() if of}
    results.will_write(trial_name(key) for key in asked)
    left = {key: of.pair for key, of in asked.items() if results.trial(key) is None}
    if left:
        log.info("%d of the answers are tried", len(left))
    count = 0
    try:
        with telling.progress(len(left), sys.stderr.isatty()) as step:
            for count, (key, found) in enumerate(tried.verdicts(trial, left, jobs), 1):
                results.keep_trial(key, found)
                step()
    except Fault as fault:
        log.warning("nothing %sis tried: %s", "more " if count else "", fault)
    return {entry: of.key for entry, of in questions.items() if of}


def publish_pages(results: Results, book: Gradebook) -> None:
    """The pages, but where their library is missing."""
    try:
        write_pages(results, book)
    except Missing as missing:
        log.warning("teacher.html and students.html are not written: %s", missing)


def tell(book: Gradebook) -> int:
    """Prints what came out, and gives the exit status."""
    given, graded = book.given, book.graded
    print(grades_files.summary(graded))
    print(f"see {shown(str(given.results / 'grades.csv'))}")
    left = len(book.open)
    for line in mark_files.by_hand(book):
        print(line)
    sys.stdout.flush()
    tell_notes(book)
    for line in grades_files.doubts(graded):
        log.warning("%s", line)
    over = sum(graded_answers.passes_limit(of) for of in graded)
    if over:
        log.warning(
            "%s past a limit: `classroom pick` keeps the few rows that tell the mistakes",
            counted(over, "answer"),
        )
    died = sum(of.decision.has_died for of in graded)
    if died:
        log.warning(
            "%s without a verdict, since ratest ended without one: grade once more; what is left"
            " then is a fault of the program, and is to be graded by hand",
            counted(died, "answer"),
        )
    if left:
        log.warning("%d of %d answers are to be graded by hand", left, len(graded))
    decided = {of.task.name for of in graded if of.is_tried or not book.mark(of).is_open}
    return 1 if left or any(task.fault and task.name not in decided for task in given.tasks) else 0
