"""Writes for each student a page and a Markdown text: the own answers, their verdicts, and the rows
on which they go wrong, as tables and as SQL to try. Nothing of another student is in them, and no
text of a reference.

The exercise has to be graded. The students are those of the class list (class/students.csv, or
--students), and those who answered; without a list, the names of the answers. The files are
EXERCISE/results/feedback/ID.html and ID.md.

    --zip moodle      feedback/moodle.zip, with the folders of the submissions, to upload as feedback files
    --zip nbgrader    feedback/nbgrader.zip, feedback/ID/ASSIGNMENT/feedback.html
    --for moodle      feedback/moodle.csv: Identifier, Full name, Grade, Feedback comments
    --for canvas      feedback/canvas.csv: Student, ID, SIS Login ID, Section, the assignment's column
    --for gradescope  feedback/gradescope.json, the results.json of one student

Where `classroom mistakes` has looked for them, hints say where the mistake is, up to the step that
`hints` of exercise.toml names and from `hints_from` on; a page shows each when it is opened.

--reference adds the references, for after the deadline: before `closes` of exercise.toml it is
refused.

Exit status: 0 where everything is written, 1 where something is missing, changed since it was
graded, or somebody is not in a platform's file, which standard error tells, 2 for words that can't
be read. """
from __future__ import annotations

import argparse
import hashlib
import logging
from datetime import datetime, timezone
from functools import partial
from pathlib import Path

from classroom.views import draw
from classroom.exercise import exercise
from classroom.commands import options
from classroom.commands.book import book_of, renew
from classroom.exercise.collected import read_collected
from classroom.people import roster as students
from classroom.people.identity import MOST_ID, key
from classroom.exercise.exercise import Exercise
from classroom.base.errors import Fault, shown
from classroom.views import markdown
from classroom.platforms import back as returning
from classroom.platforms import registry
from classroom.platforms.back import Back, Wanted
from classroom.platforms.gradescope import VISIBILITIES
from classroom.views import for_student as sheet
from classroom.hints.find_mistakes import Mistakes
from classroom.grading.store import Results
from classroom.base.files import Written

SUMMARY = "write to each student what became of the answers"
FOLDER = "feedback"
log = logging.getLogger(__name__)


def add_arguments(parser: argparse.ArgumentParser) -> None:
    options.exercise(parser, ", graded")
    parser.add_argument(
        "--students",
        metavar="FILE",
        type=Path,
        help=(
            "the class list (what `students` of exercise.toml names, else"
            " EXERCISE/class/students.csv)"
        ),
    )
    parser.add_argument(
        "--reference", action="store_true", help="with the references, for after the deadline"
    )
    parser.add_argument(
        "--zip",
        choices=sorted(one.name for one in registry.PLATFORMS if one.place),
        action="append",
        default=[],
        help="the pages in an archive for this platform",
    )
    parser.add_argument(
        "--for",
        choices=sorted(one.name for one in registry.PLATFORMS if one.table),
        action="append",
        default=[],
        dest="tables",
        help="the points in the form of this platform",
    )
    parser.add_argument(
        "--visibility",
        choices=VISIBILITIES,
        default="visible",
        help="of the tests at Gradescope (visible)",
    )
    parser.add_argument(
        "--assignment", metavar="NAME", help="how the platform calls the exercise (its title)"
    )


def run(arguments: argparse.Namespace) -> int:
    loaded = exercise.load(arguments.exercise)
    if arguments.reference:
        check_closed(loaded)
    results = Results(loaded.results)
    given, graded = results.graded(loaded)
    listed = students.read(arguments.students or given.folder / given.settings.students)
    template = draw.environment().get_template("feedback.html")
    mistakes = Mistakes(given).of(graded)
    book = book_of(given, graded, listed, mistakes)
    members = members_of(given.folder)
    backs = []
    for of in book.standings:
        made = sheet.sheet(given, of, arguments.reference, mistakes)
        backs.append(
            Back(
                of,
                made,
                template.render(page=made).encode("utf-8", "replace"),
                members.get(key(of.student.id), ()),
            )
        )
    files = {f"{stem(back.sheet.id)}.html": back.page for back in backs}
    files |= {
        f"{stem(back.sheet.id)}.md": markdown.text_of(back.sheet).encode("utf-8", "replace")
        for back in backs
    }
    missing = add_platforms(files, backs, arguments, arguments.assignment or given.title)
    renew(results, book)
    Written(given.results / FOLDER).put(files)
    print(f"{draw.counted(len(backs), 'student')}: see {shown(str(given.results / FOLDER))}")
    return 1 if missing else 0


def stem(name: str) -> str:
    """The name of a student's files, a digest where the own one is too long for a file."""
    return name if len(name.encode()) <= MOST_ID else hashlib.sha256(name.encode()).hexdigest()


def check_closed(given: Exercise) -> None:
    closes = given.settings.last_moment
    if closes and datetime.now(timezone.utc) < closes:
        raise Fault(
            f"the exercise closes at {closes.isoformat(' ')}: --reference is for afterwards"
        )


def members_of(folder: Path) -> dict[str, tuple[str, ...]]:
    """The files of the archive that a student handed in, by the keys of their ids."""
    found: dict[str, tuple[str, ...]] = {}
    for line in read_collected(folder).values():
        if line.answer:
            name = key(line.answer)
            found[name] = (*found.get(name, ()), line.member)
    return found


def add_platforms(
    files: dict[str, bytes], backs: list[Back], arguments: argparse.Namespace, assignment: str
) -> int:
    """Adds the files for platforms; gives how many students are missing in one."""
    wanted = Wanted(assignment, arguments.visibility)
    made = {}
    for platform in registry.PLATFORMS:
        if platform.table and platform.name in arguments.tables:
            made[platform.table_file] = platform.table(backs, wanted)
    for platform in registry.PLATFORMS:
        if platform.place and platform.name in arguments.zip:
            place = partial(platform.place, wanted=wanted)
            made[f"{platform.name}.zip"] = returning.archive(backs, place)
    for name, one in made.items():
        files[name] = one.content
        if one.without:
            log.warning(
                "%s: without a number there, and left out: %s",
                name,
                shown(*(student.id for student in one.without)),
            )
    return sum(len(one.without) for one in made.values())
