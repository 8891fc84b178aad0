"""Gives marks to answers that a verdict leaves open, or other ones than the verdict's.

Without further words it serves a page at 127.0.0.1 on which answers are marked group by group: those
with one mistake, as `classroom mistakes` names it, else with one outcome, else with one text; what
is open first, then the most frequent. It prints the address, with a key that lets one browser in,
and opens it where there is a browser. Each mark is a line of EXERCISE/class/marks.csv, on the disk
before the page says so.

With a task, a student and points it writes one line of EXERCISE/class/marks.csv: for the student's
answer as it is now, or by --same for all answers with the same text, mistake or outcome. A line
about the same is replaced. With --list it prints the groups of answers that are open, one a line.

The exercise has to be graded. class.csv and the other tables of marks are written anew, and so are
the pages of the class.

Exit status: 0 where it is listed or written, 1 where something is missing or wrong, which standard
error tells, 2 for words that can't be read. """
from __future__ import annotations

import argparse
import getpass
from collections.abc import Mapping
from datetime import datetime, timezone

from classroom.base.errors import Fault, shown
from classroom.commands import options
from classroom.commands.book import book_of, renew, write_pages
from classroom.exercise import exercise
from classroom.exercise.exercise import Task
from classroom.grading.store import Results
from classroom.hints.find_mistakes import Mistakes
from classroom.hints.mistake import Mistake
from classroom.marks import hand, mark_groups, write_marks
from classroom.marks.gradebook import Gradebook, most_of
from classroom.marks.mark import About, Mark, Rule
from classroom.marks.mark import shown as shown_points
from classroom.marks.mark_groups import Member
from classroom.people import roster
from classroom.people.identity import key
from classroom.people.roster import ClassList
from classroom.web.marker import Marker
from ratest.draw import counted

SUMMARY = "give marks by hand"
SAME = {mark_groups.noun(about): about for about in About if about != About.STUDENT}


def add_arguments(parser: argparse.ArgumentParser) -> None:
    options.exercise(parser, ", graded")
    parser.add_argument("task", metavar="TASK", nargs="?", help="the task of the answer")
    parser.add_argument(
        "student", metavar="STUDENT", nargs="?", help="the id of the student, or the login"
    )
    parser.add_argument("points", metavar="POINTS", nargs="?", help="a number, as 1.5")
    parser.add_argument("--comment", metavar="TEXT", default="", help="a comment to the student")
    parser.add_argument(
        "--same",
        choices=list(SAME),
        help="for all answers to the task that have the same",
    )
    parser.add_argument(
        "--rule",
        choices=[rule.value for rule in Rule if rule],
        default="",
        help=(
            "late: the rule for late answers applies to these points; bonus: they may be above the"
            " task's, or below 0"
        ),
    )
    parser.add_argument(
        "--by", metavar="NAME", help="who gives the mark (the name of the login of this machine)"
    )
    parser.add_argument(
        "--list", action="store_true", help="print the groups of answers that are open"
    )
    parser.add_argument(
        "--task", dest="only", metavar="T", help="list or show the answers to this task alone"
    )
    page = parser.add_argument_group("the page")
    page.add_argument("--names", action="store_true", help="show whose answers they are")
    page.add_argument("--no-browser", action="store_true", help="open no browser")
    page.add_argument(
        "--port", metavar="N", type=options.port, default=0, help="the port (0: a free one)"
    )
    parser.set_defaults(refuse=parser.error)


def run(arguments: argparse.Namespace) -> int:
    words = [arguments.task, arguments.student, arguments.points]
    if 0 < words.count(None) < 3 or arguments.list and any(words):
        arguments.refuse("TASK, STUDENT and POINTS are wanted, or none of them")
    results = Results((loaded := exercise.load(arguments.exercise)).results)
    given, graded = results.graded(loaded)
    listed = roster.read(given.folder / given.settings.students)
    mistakes = Mistakes(given).of(graded)

    def made() -> Gradebook:
        return book_of(given, graded, listed, mistakes)

    book = made()
    task = task_named(book, arguments.only) if arguments.only else None
    by = login() if arguments.by is None else arguments.by
    if arguments.list:
        for group in mark_groups.groups(book):
            if group.open and task in (None, group.task):
                print(group.told())
        return 0
    if not any(words):
        return serve_page(arguments, results, Marker(made, task, by), mistakes)
    member = member_named(book, listed, task_named(book, arguments.task), arguments.student)
    line = line_for(book, member, arguments, by)
    write_marks.change(given.folder / hand.FILE, most_of(given), write_marks.putting([line]))
    after = made()
    renew_all(results, after, mistakes)
    print(told_of(after, line))
    return 0


def login() -> str:
    """The name of who is logged in, empty where the system knows none."""
    try:
        return getpass.getuser()
    except (KeyError, OSError):
        return ""


def renew_all(results: Results, book: Gradebook, mistakes: Mapping[str, Mistake]) -> None:
    """The tables, and the pages of the class where there are some."""
    renew(results, book)
    if (results.folder / "teacher.html").is_file():
        write_pages(results, book, mistakes)


def serve_page(
    arguments: argparse.Namespace,
    results: Results,
    marker: Marker,
    mistakes: Mapping[str, Mistake],
) -> int:
    """Until it is stopped; then the tables are those of the marks."""
    from classroom.web import mark_server

    if not marker.groups:
        raise Fault("nothing was handed in")
    mark_server.serve(marker, mistakes, arguments.names, arguments.port, not arguments.no_browser)
    renew_all(results, marker.state().book, mistakes)
    return 0


def task_named(book: Gradebook, word: str) -> Task:
    for task in book.given.tasks:
        if word in (task.name, task.label):
            return task
    raise Fault(f"there is no task {shown(word)}")


def member_named(book: Gradebook, listed: ClassList, task: Task, word: str) -> Member:
    """The student whose id, e-mail address or login it is."""
    known = listed.known("id", word)
    wanted = key(known.id if known else word)
    at = book.given.tasks.index(task)
    for one in book.standings:
        if key(one.student.id) == wanted:
            open_mark = Mark(None, book.most_by_task[at])
            return Member(task, one.student.id, one.marks[at] or open_mark, one.answers[at])
    raise Fault(f"there is no student {shown(word)}")


def line_for(book: Gradebook, member: Member, arguments: argparse.Namespace, by: str) -> hand.Line:
    about = SAME[arguments.same] if arguments.same else About.STUDENT
    values = {
        "task": member.task.label,
        mark_groups.noun(about): mark_groups.named(book, member, about),
        "points": arguments.points,
        "comment": arguments.comment,
        "rule": arguments.rule,
        "by": by,
        "time": datetime.now(timezone.utc).isoformat(timespec="seconds"),
    }
    if about == About.STUDENT:
        values["text"] = member.text
    return write_marks.line_of(values, most_of(book.given))


def told_of(book: Gradebook, line: hand.Line) -> str:
    """For how many answers the line counts now."""
    applied = [
        lines for lines in book.lines.values() if any(one.is_about_the_same(line) for one in lines)
    ]
    own = sum(lines[0].is_about_the_same(line) for lines in applied)
    most = shown_points(most_of(book.given)[line.task])
    told = f"task {shown(line.task)}: {shown_points(line.given.points)} of {most}"
    if line.given.about == About.STUDENT:
        return f"{told} for {shown(line.student)}"
    others = len(applied) - own
    more = f"; {others} more with the same have a line that goes before" if others else ""
    return f"{told} for {counted(own, 'answer')}{more}"
