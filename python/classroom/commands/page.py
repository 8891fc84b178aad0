"""Makes the pages of a class that was graded: EXERCISE/results/teacher.html and students.html.

Each is one file that asks for nothing from anywhere and needs no script. `classroom grade` makes
them too; this makes them again. The one for students may be shown before the deadline: it has
neither references nor points nor names, and no text that may be as good as a reference, so of the
answers only the texts that differ. With --output one of them goes elsewhere, which --for says.

With --asked it makes EXERCISE/results/asked.html instead, of what was asked at the page of
`classroom serve`: which mistakes are made in each task, the most frequent first.

Exit status: 0 where they are written, 1 where something is missing or changed since it was graded,
which standard error tells, 2 for words that can't be read. """
from __future__ import annotations

import argparse
from pathlib import Path

from classroom.exercise import exercise
from classroom.commands import options
from classroom.commands.book import book_of, renew, write_pages
from classroom.people import roster as students
from classroom.base.errors import Fault, shown
from classroom.base.files import write
from classroom.grading.store import Results
from classroom.views import for_class, for_teacher
from classroom.web import asked_page
from classroom.web.questions import LOG

SUMMARY = "make the pages of a class"


def add_arguments(parser: argparse.ArgumentParser) -> None:
    options.exercise(parser, ", graded")
    parser.add_argument(
        "--names", action="store_true", help="in the page for students the names of the answers"
    )
    for gone in ("--no-reference", "--no-names"):
        parser.add_argument(gone, action="store_true", help=argparse.SUPPRESS)
    parser.add_argument("--asked", action="store_true", help="make the page of what was asked")
    parser.add_argument(
        "--asked-file", metavar="FILE", type=Path, help="what was asked (EXERCISE/results/asked.db)"
    )
    parser.add_argument("--output", metavar="FILE", type=Path, help="write the page here")
    parser.add_argument(
        "--for",
        dest="reader",
        choices=("teacher", "students"),
        help="the one to write with --output, or with --asked (teacher)",
    )


def run(arguments: argparse.Namespace) -> int:
    given = exercise.load(arguments.exercise)
    if arguments.no_reference or arguments.no_names:
        raise Fault(
            f"{shown(str(given.results / 'students.html'))} has neither references nor names:"
            " --no-reference and --no-names are no options any more"
        )
    if arguments.asked or arguments.asked_file:
        asked = arguments.asked_file or given.results / LOG
        make = asked_page.page_for_teacher
        if arguments.reader == "students":
            make = asked_page.page_for_students
        write(arguments.output or given.results / "asked.html", make(given, asked))
        return 0
    if bool(arguments.output) != bool(arguments.reader):
        raise Fault("--output and --for are wanted together: which page goes where")
    results = Results(given.results)
    given, graded = results.graded(given)
    listed = students.read(given.folder / given.settings.students)
    book = book_of(given, graded, listed)
    renew(results, book)
    if arguments.reader == "teacher":
        write(arguments.output, for_teacher.page_of(book))
        return 0
    if not arguments.output:
        write_pages(results, book)
    if arguments.output or arguments.names:
        # Students know one another by the names of the files at most.
        seen = book_of(given, graded, listed, is_by_files=True)
        page = for_class.page_of(seen, arguments.names)
        write(arguments.output or given.results / "students.html", page)
    return 0
