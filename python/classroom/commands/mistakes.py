"""Looks in each answer that differs, or of which duplicates or order are remarked on, for the
mistake: which one it is, and where.

For an answer changes of one place are made. One with which the answer is proved to agree with the
reference on every lawful part of the rows is a repair: there is the mistake. A change of the
reference that agrees with the answer says which mistake it is, as "the reference with < for <=".
What holds on the exercise's few rows by chance is not told: other rows of the schema refute it,
those in EXERCISE/guard, which `classroom pick` and `classroom import --rows` leave there, and rows
that are made for the schema. Where a database decided, changes are tried by that database and
nothing of it is proved.

The answers have to be graded. EXERCISE/results/mistakes.csv gets for each task the mistakes, the
most frequent first, with the answers that have one, its place in them, and the text of one of them
with its repair; the page of the class is made again with them. --deep also looks for two changes
where one is not enough, 25 seconds at most for an answer. What is stopped goes on where it was.

Exit status: 0 where each answer was looked at, 1 where one was not or nothing could be, which
standard error tells, 2 for words that can't be read. """
from __future__ import annotations

import argparse
import logging
import sys

from classroom.exercise import exercise
from classroom.commands import options
from classroom.commands.book import book_of, renew, write_pages
from classroom.people import roster as students
from classroom.base.errors import Fault, library, shown
from classroom.base.files import write
from classroom.grading.store import Results

SUMMARY = "tell which mistakes the answers have, and where"
log = logging.getLogger(__name__)


def add_arguments(parser: argparse.ArgumentParser) -> None:
    options.exercise(parser, ", graded")
    parser.add_argument("--task", metavar="T", help="of this task alone")
    options.jobs(parser)
    options.build(parser, "ratest_plus")
    parser.add_argument(
        "--deep", action="store_true", help="look for two changes where one is not enough"
    )


def run(arguments: argparse.Namespace) -> int:
    library("sqlglot", "python3-sqlglot")
    from classroom.hints import mistakes_csv as table
    from classroom.hints import find_mistakes as whole

    results = Results((loaded := exercise.load(arguments.exercise)).results)
    given, graded = results.graded(loaded)
    some = [of for of in graded if arguments.task in (None, of.task.name, of.task.label)]
    if arguments.task is not None and not any(
        arguments.task in (task.name, task.label) for task in given.tasks
    ):
        raise Fault(f"there is no task {shown(arguments.task)}")
    looked = whole.Mistakes(given, arguments.deep)
    with results.held():
        looked.look(some, arguments.jobs, sys.stderr.isatty())
        found = looked.of(graded)
        made = table.lines(graded, found)
        write(results.folder / "mistakes.csv", table.csv_of(made))
        listed = students.read(given.folder / given.settings.students)
        book = book_of(given, graded, listed, found)
        renew(results, book)
        write_pages(results, book, found)
    for line in table.told([one for one in made if one.task in {of.task.label for of in some}]):
        print(line)
    print(f"see {shown(str(results.folder / 'mistakes.csv'))}")
    left = [
        of
        for of in some
        if looked.is_asked(of) and (of.record not in found or found[of.record].fault)
    ]
    if left:
        log.warning("%d of the answers could not be looked at", len(left))
    return 1 if left else 0
