"""Removes what an exercise has of one student.

These are the answers with the older ones, their lines in class/collected.csv and class/placed.csv,
the lines of class/marks.csv for this student alone with their comments, the pages of feedback, and
what was handed in at the page of `serve`. All is listed first, and removed after a yes. The tables
of the class name the student, too, and go with it: `classroom grade` makes them anew. Questions are
stored without a name. The line of the class list stays.

With --export it is copied into a zip file before.

Exit status: 0 where all of it is gone, or where nothing was there, 1 where it stays, which standard
error tells, 2 for words that can't be read. """
from __future__ import annotations

import argparse
from pathlib import Path

from classroom.base.errors import Fault, shown
from classroom.commands.asked import agreed
from classroom.exercise import exercise
from classroom.grading.store import Results
from classroom.people import roster
from classroom.commands import options, student_data
from classroom.web.course import place_of_hand_ins
from classroom.web.questions import LOG

SUMMARY = "remove what is kept of a student"


def add_arguments(parser: argparse.ArgumentParser) -> None:
    options.exercise(parser, "")
    parser.add_argument(
        "student", metavar="STUDENT", help="the id of the student, the e-mail address or the login"
    )
    parser.add_argument(
        "--export", metavar="FILE", type=Path, help="copy it into this zip file before"
    )
    parser.add_argument(
        "--asked-file",
        metavar="FILE",
        type=Path,
        help="the file beside that of the hand-ins, if it is not EXERCISE/results/asked.db",
    )
    parser.add_argument("--yes", action="store_true", help="without asking")


def run(arguments: argparse.Namespace) -> int:
    given = exercise.load(arguments.exercise)
    listed = roster.read(given.folder / given.settings.students)
    asked = arguments.asked_file or given.results / LOG
    with Results(given.results).held():
        found = student_data.data_of(given, listed, arguments.student, place_of_hand_ins(asked))
        if found.is_empty():
            print(f"nothing is kept of {shown(found.id)}")
            return 0
        for line in found.lines():
            print(line)
        if arguments.export:
            found.export(arguments.export)
            print(f"copied to {shown(str(arguments.export))}")
        print(
            f"all of this is removed, and the tables of the class, of {shown(found.id)}", flush=True
        )
        if not arguments.yes and not agreed():
            raise Fault("nothing was removed: --yes removes it without asking")
        found.remove()
    print("classroom grade makes the tables of the class anew")
    return 0
