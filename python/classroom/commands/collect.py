"""Collects the answers of a class from what a learning platform exports.

SOURCE is a zip file or a folder. Its form is told by the names in it, or by --form:

    moodle      Full Name_12345_assignsubmission_file_/FILE.sql, .._onlinetext_/onlinetext.html
    canvas      lastfirst_123_45678_FILE.sql, lastfirst_LATE_123_45678_FILE.sql, .._text.html
    gradescope  assignment_1_export/submission_123/FILE.sql, and submission_metadata.yml
    nbgrader    submitted/ID/ASSIGNMENT/FILE.sql
    folders     ID/FILE.sql

Any other form is told by --form-pattern, or a file's own name says all (--by-name). Notebooks
(.ipynb) and zip files that were handed in are read, too.

With --asked there is no SOURCE: the last text that each login handed in at the page of `classroom
serve` before the exercise closed is the answer.

The answers go to EXERCISE/TASK/answers/ID.sql. The id is that of the class list
(class/students.csv, or --students), which knows the numbers by its columns moodle and canvas;
without it, the name in the archive. The task of a file is that of --task; else, where comments
`-- task T` name two tasks or more, the file is split at them; else it is that of its name, or of
one such comment. Of several submissions of one student Canvas's last one counts. --place, or a line
of EXERCISE/class/placed.csv, goes before all of this.

What became of each file is written to EXERCISE/class/collected.csv. An answer that was
collected before is replaced by a later one, and kept in EXERCISE/class/older. One that was edited
since is left, and named, unless --force is given. So the same command may be run again.

Exit status: 0 where everything is placed, 1 where something could not be placed or was kept, which
standard error tells, 2 for words that can't be read. """
from __future__ import annotations

import argparse
import logging
import re
from collections.abc import Mapping, Sequence
from pathlib import Path

from classroom.exercise import exercise
from classroom.people import roster as students
from classroom.people.identity import fault_of_id, key
from classroom.views.draw import counted
from classroom.base.errors import Fault, shown
from classroom.platforms import collect as collecting
from classroom.platforms import place as placing
from classroom.platforms import placed_by_hand
from classroom.platforms import registry
from classroom.platforms.archive import Member
from classroom.platforms.file_names import GROUPS
from classroom.platforms.handed import Handed
from classroom.platforms.placed_by_hand import label_key
from classroom.platforms.read_archive import How, read_archive
from classroom.web import hand_ins as handedin
from classroom.web.questions import LOG
from classroom.web.course import place_of_hand_ins

SUMMARY = "collect answers from a platform's archive"
log = logging.getLogger(__name__)


def add_arguments(parser: argparse.ArgumentParser) -> None:
    parser.add_argument(
        "source",
        metavar="SOURCE",
        type=Path,
        nargs="?",
        help="the archive of the platform, or its folder",
    )
    parser.add_argument(
        "exercise", metavar="EXERCISE", type=Path, help="the folder of the exercise"
    )
    parser.add_argument(
        "--form",
        choices=sorted(one.name for one in registry.PLATFORMS if one.names),
        help="the form of the archive, where its names don't tell it",
    )
    parser.add_argument(
        "--form-pattern",
        metavar="RE",
        type=path_pattern,
        help=(
            "the archive has another form: a regular expression of the whole path of a file, with"
            " the groups `student` and `file`, as '(?P<student>[^/]+)/(?P<file>.+)'"
        ),
    )
    parser.add_argument(
        "--by-name",
        action="store_true",
        help="a file's own name says whose it is and for which task, as anna-1.sql",
    )
    parser.add_argument(
        "--assignment",
        metavar="NAME",
        help="the assignment that is this exercise, where the archive has several",
    )
    parser.add_argument("--task", metavar="T", help="all files are answers to this task")
    parser.add_argument(
        "--place",
        nargs=3,
        action="append",
        default=[],
        metavar=("FILE", "STUDENT", "TASK"),
        help=(
            "a file of the archive is this student's answer to this task; may be given again, and"
            " is kept in EXERCISE/class/placed.csv"
        ),
    )
    parser.add_argument(
        "--task-pattern",
        metavar="RE",
        type=pattern,
        default=re.compile(placing.SPLIT, re.M | re.I),
        help=(
            "what begins the answer to a task in a file with several: a regular expression, whose"
            " first group is the task"
        ),
    )
    parser.add_argument(
        "--students",
        metavar="FILE",
        type=Path,
        help=(
            "the class list (what `students` of exercise.toml names, else"
            " EXERCISE/class/students.csv)"
        ),
    )
    parser.add_argument(
        "--asked", action="store_true", help="what was handed in at the page of `classroom serve`"
    )
    parser.add_argument(
        "--asked-file",
        metavar="FILE",
        type=Path,
        help="the --asked-file of the server (EXERCISE/results/asked.db)",
    )
    parser.add_argument(
        "--force", action="store_true", help="write over answers that were edited, too"
    )
    parser.add_argument(
        "--dry-run", action="store_true", help="write nothing, and tell what would be done"
    )


def pattern(word: str) -> re.Pattern[str]:
    try:
        made = re.compile(word, re.MULTILINE | re.IGNORECASE)
    except re.error as fault:
        raise argparse.ArgumentTypeError(f"no regular expression: {fault}") from None
    if made.groups < 1:
        raise argparse.ArgumentTypeError("it has no group, which would be the task")
    return made


def path_pattern(word: str) -> re.Pattern[str]:
    try:
        made = re.compile(word, re.DOTALL)
    except re.error as fault:
        raise argparse.ArgumentTypeError(f"no regular expression: {fault}") from None
    if not set(GROUPS) <= set(made.groupindex):
        raise argparse.ArgumentTypeError(
            "the groups (?P<student>..) and (?P<file>..) have to be in it"
        )
    return made


def run(arguments: argparse.Namespace) -> int:
    given = exercise.load(arguments.exercise)
    tasks = {task.label: task for task in given.tasks}
    if arguments.task is not None and arguments.task not in tasks:
        raise Fault(f"there is no task {shown(arguments.task)}")
    is_asked = bool(arguments.asked or arguments.asked_file)
    if is_asked == (arguments.source is not None):
        raise Fault("either SOURCE or --asked is wanted")
    if sum(map(bool, (arguments.form, arguments.form_pattern, arguments.by_name))) > 1:
        raise Fault("only one of --form, --form-pattern and --by-name is wanted")
    listed = students.read(arguments.students or given.folder / given.settings.students)
    if is_asked:
        log_file = arguments.asked_file or given.results / LOG
        answers, rest = of_page(place_of_hand_ins(log_file), given, listed)
        source = "the page"
    else:
        by_hand = placed_by_hand.read_placed(given.folder, tuple(tasks), listed)
        by_hand |= placed_by_hand.checked(arguments.place, tuple(tasks), listed)
        answers, rest = of_archive(arguments, tuple(tasks), listed, by_hand)
        source = arguments.source.name
        if arguments.place and not arguments.dry_run:
            placed_by_hand.write_placed(given.folder, by_hand)
    done = collecting.collect(
        given.folder,
        {name: task.folder for name, task in tasks.items()},
        answers,
        rest,
        source,
        arguments.force,
        not arguments.dry_run,
    )
    if arguments.dry_run:
        for answer in answers:
            print(
                f"{shown(answer.handed.member.label)}: task {shown(answer.task)} of"
                f" {shown(answer.student)}"
            )
    return tell(answers, rest, done, listed)


def of_archive(
    arguments: argparse.Namespace,
    tasks: tuple[str, ...],
    listed: students.ClassList,
    by_hand: Mapping[str, placed_by_hand.ByHand],
) -> tuple[list[placing.Placed], list[placing.NotPlaced]]:
    """The answers in an archive, and what could not be placed. What a teacher placed goes before."""
    how = How(arguments.form, arguments.form_pattern, arguments.by_name, arguments.assignment)
    reading, unnamed = read_archive(arguments.source, how, listed, tasks)
    for note in reading.notes:
        print(note)
    members = [*(one.member for one in reading.found), *reading.others, *unnamed]
    fixed = placed_so([one for one in members if not one.fault], listed, by_hand)
    known = {one.handed.member.label for one in fixed}
    answers, rest = placing.placed(
        [one for one in reading.found if one.member.label not in known],
        placing.Rules(tasks, listed, arguments.task, arguments.task_pattern),
    )
    taken = {(one.task, key(one.student)): one for one in fixed}
    passed = [one for one in answers if (one.task, key(one.student)) in taken]
    for name in sorted(set(by_hand) - {label_key(one.label) for one in members}):
        log.warning("placed by hand, and not in this archive: %s", shown(name))
    return [*(one for one in answers if one not in passed), *fixed], [
        *rest,
        *(placing.passed_over(one, taken[one.task, key(one.student)]) for one in passed),
        *(
            placing.NotPlaced(
                one.label,
                one.fault or "its name has not the form of the others",
                is_refused=bool(one.fault),
            )
            for one in (*reading.others, *unnamed)
            if one.label not in known
        ),
    ]


def placed_so(
    members: Sequence[Member],
    listed: students.ClassList,
    by_hand: Mapping[str, placed_by_hand.ByHand],
) -> list[placing.Placed]:
    """The files that a teacher placed."""
    return [
        placing.Placed(
            to.task,
            to.student,
            member.content,
            Handed(member, "id", to.student, to.student, member.path[-1]),
            listed.with_id(to.student) is not None,
        )
        for member in {one.label: one for one in members}.values()
        if (to := by_hand.get(label_key(member.label)))
    ]


def of_page(
    path: Path, given: exercise.Exercise, listed: students.ClassList
) -> tuple[list[placing.Placed], list[placing.NotPlaced]]:
    """What was handed in at the page as long as answers were taken."""
    tasks = {task.label for task in given.tasks}
    answers, rest = [], []
    for one in handedin.last_before(path, given.settings.last_moment):
        label = f"{one.login}, task {one.task}, {one.time.isoformat(' ')}"
        student = listed.known("id", one.login)
        name = student.id if student else one.login
        why = fault_of_id(name) if one.task in tasks else "there is no such task"
        if why:
            rest.append(placing.NotPlaced(label, why))
        else:
            member = Member((label,), one.text.encode("utf-8", "replace"))
            answers.append(
                placing.Placed(
                    one.task,
                    name,
                    member.content,
                    Handed(member, "id", name, name, label, time=one.time.isoformat()),
                    student is not None,
                )
            )
    return answers, rest


def tell(
    answers: list[placing.Placed],
    rest: list[placing.NotPlaced],
    done: collecting.Done,
    listed: students.ClassList,
) -> int:
    """Prints what was done; gives the exit status."""
    unplaced = [one for one in rest if one.is_open]
    refused = sum(one.is_refused for one in unplaced)
    for one in sorted(unplaced, key=lambda one: one.label):
        log.warning("not placed: %s: %s", shown(one.label), one.why)
    if unplaced:
        log.warning(
            "who handed in what is not placed gets no 0: the tasks are open. --place FILE STUDENT"
            " TASK places a file, and so does a line of %s",
            placed_by_hand.FILE,
        )
    for answer in done.kept:
        log.warning(
            "kept: the answer of %s to task %s was edited here; --force writes it over",
            shown(answer.student),
            shown(answer.task),
        )
    for member in done.gone:
        log.warning("no longer in the archive: %s; its answer is left as it is", shown(member))
    strangers = (
        sorted({answer.student for answer in answers if not answer.listed})
        if listed.students
        else []
    )
    if strangers:
        log.warning("not in the class list: %s", shown(*strangers))
    if listed.renamed:
        told = ", ".join(f"{use} is {shown(name)}" for use, name in listed.renamed)
        print(f"class list: {told}")
    people = len({answer.student for answer in answers})
    print(
        f"{counted(people, 'student')}, {counted(len(answers), 'answer')}: {done.new} new,"
        f" {done.replaced} replaced, {done.same} as they were, {len(done.kept)} kept"
        + (f", {len(unplaced) - refused} not placed" if len(unplaced) > refused else "")
        + (f", {refused} refused" if refused else "")
        + (f", {len(rest) - len(unplaced)} passed over" if len(rest) > len(unplaced) else "")
    )
    return 1 if unplaced or done.kept or strangers else 0
