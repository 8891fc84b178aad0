"""Serves a page at which students ask: they pick a task, type a query and see at once whether it
agrees with the reference, or the fewest rows on which the two differ, or why it is refused and
where.

COURSE is the folder of an exercise, or a folder of exercises. The reference queries are never sent,
but after the exercise closes where exercise.toml says so. All is read at the start, so a change
counts from the next start on. exercise.toml has titles, and when an exercise opens and closes;
question.txt in the folder of a task, in Markdown, is shown above the query. What is asked is kept
in an SQLite file with its hour and without anybody's name; `classroom page --asked` makes a page of
it.

What `ratest` doesn't read a database tries, for three seconds in a process of its own; what comes
of that is called tried. A question is one call of `ratest` without environment and network, with
the limits below; a text that was asked before is answered from memory. At most --jobs calls run at
once, one for each visitor, and beside them as many that take longer than a second; further ones
wait for three seconds at most, --queue of them, and the others are told to ask again (status 503).

Who asks is told by a random cookie and by the address, or by --user-header where a web server in
front asks for a login; this is believed of --proxy and of --socket alone. With a login students may
hand in.

Exit status: 0 where it was stopped, 1 where it can't serve, which standard error tells, 2 for words
that can't be read. """
from __future__ import annotations

import argparse
import contextlib
import logging
import os
import re
import sys
import tempfile
from collections.abc import Mapping, Sequence
from concurrent.futures import ThreadPoolExecutor
from pathlib import Path

from classroom.grading import open as opening
from classroom.commands import options
from classroom.grading import trials as tried
from classroom.exercise.exercise import Task, digest
from classroom.base.errors import Fault, library, shown
from classroom.process.forkserver import Forks
from classroom.process.limits import Limits
from classroom.exercise import guards as guard
from classroom.process import isolation as child
from classroom.web.questions import Log, foundation_of
from classroom.web.ask import MOST_BYTES, Asker, Budget, Decided
from classroom.web.course import (
    Course,
    Served,
    check_apart,
    folders,
    held,
    place_of_hand_ins,
    place_of_log,
)
from classroom.web.hand_ins import HandIns
from classroom.web.cache import Recent
from classroom.web.served_exercise import copied
from classroom.web.queue import Places
from classroom.engines import run_child as asking
from classroom.verdict import sentences as words
from classroom.engines.run_child import Trier
from classroom.exercise.typed_rows import POSTGRESQL, SQLITE
from classroom.verdict.verdict import Refusal
from classroom.grading.trials import Trial

SUMMARY = "serve a page at which students ask"
SECONDS, CONFLICTS = 10, 2000
TRIAL_SECONDS = 3.0
WAITING_SECONDS = 3.0
KEPT_BYTES = 64_000_000
HOURLY, KEEP_DAYS = 20, 180
log = logging.getLogger(__name__)


def add_arguments(parser: argparse.ArgumentParser) -> None:
    parser.add_argument(
        "exercise",
        metavar="COURSE",
        type=Path,
        help="the folder of an exercise, or one with exercises",
    )
    parser.add_argument(
        "--port",
        metavar="N",
        type=options.port,
        default=8000,
        help="the port (8000); 0 for a free one",
    )
    parser.add_argument(
        "--host",
        metavar="ADDRESS",
        default="127.0.0.1",
        help="the address (127.0.0.1, so this machine alone)",
    )
    parser.add_argument(
        "--socket",
        metavar="PATH",
        type=Path,
        help="a Unix socket in place of the port, for a web server in front",
    )
    parser.add_argument(
        "--socket-mode",
        metavar="MODE",
        type=mode,
        default=0o660,
        help="its mode, as chmod takes it (660)",
    )
    options.jobs(parser)
    options.build(parser, "ratest", "ratest_plus")
    parser.add_argument(
        "--queue", metavar="N", type=options.count, default=64, help="questions that may wait (64)"
    )
    options.limits(parser, "a question", SECONDS, CONFLICTS)
    tried.add_arguments(parser)
    showing = parser.add_mutually_exclusive_group()
    showing.add_argument(
        "--hourly",
        metavar="N",
        type=whole,
        default=HOURLY,
        help=f"show a student N different counterexamples an hour ({HOURLY}); 0 for any number",
    )
    showing.add_argument(
        "--only-verdict", action="store_true", help="tell only whether a query agrees"
    )
    parser.add_argument(
        "--asked-file",
        metavar="FILE",
        type=Path,
        help="keep what is asked here (EXERCISE/results/asked.db); of a course a folder",
    )
    parser.add_argument(
        "--asked-size",
        metavar="MB",
        type=options.count,
        default=1000,
        help="megabytes that it may have (1000)",
    )
    parser.add_argument(
        "--keep-days",
        metavar="N",
        type=whole,
        default=KEEP_DAYS,
        help=f"days that questions are kept ({KEEP_DAYS}); 0 for ever",
    )
    parser.add_argument(
        "--proxy",
        metavar="ADDRESS",
        help="the address, or name, of a web server in front, whose X-Forwarded-For is believed",
    )
    parser.add_argument(
        "--user-header",
        metavar="NAME",
        help="the header in which that server sends the name of a login, which is wanted then",
    )
    parser.add_argument(
        "--frame-ancestors",
        metavar="SITE",
        action="append",
        default=[],
        type=site,
        help="a site in whose frames the page may stand, as https://moodle.example.org",
    )
    parser.add_argument(
        "--teacher-port",
        metavar="N",
        type=options.port,
        help="the teacher's page, at this port of 127.0.0.1 alone",
    )


def whole(word: str) -> int:
    return 0 if word == "0" else options.count(word)


def mode(word: str) -> int:
    if not re.fullmatch("0?[0-7]{3}", word):
        raise argparse.ArgumentTypeError("a mode of three octal digits is wanted")
    return int(word, 8)


def site(word: str) -> str:
    if not re.fullmatch(r"https?://[A-Za-z0-9.*-]+(:[0-9]+)?", word):
        raise argparse.ArgumentTypeError("a site is wanted, as https://moodle.example.org")
    return word


def run(arguments: argparse.Namespace) -> int:
    for name, package in (
        ("flask", "python3-flask"),
        ("waitress", "python3-waitress"),
        ("limits", "python3-limits"),
    ):
        library(name, package)
    from classroom.web.server import Address, Running, serve
    from classroom.web.login import SOCKET_PEER, Front, addresses

    peers = {SOCKET_PEER} if arguments.socket else addresses(arguments.proxy or "")
    if arguments.user_header and not peers:
        raise Fault(
            "--user-header needs --socket or --proxy: from anybody else the header is not believed"
        )
    front = Front(frozenset(peers), arguments.user_header or "")
    jobs = arguments.jobs or len(os.sched_getaffinity(0))
    with contextlib.ExitStack() as stack:
        work = Path(stack.enter_context(tempfile.TemporaryDirectory(prefix="classroom-")))
        course, watched = served(arguments, work, jobs, stack)
        address = Address(arguments.host, arguments.port, arguments.socket, arguments.socket_mode)
        serve(
            Running(
                course,
                watched,
                front,
                address,
                2 * jobs + arguments.queue,
                arguments.hourly or None,
                arguments.only_verdict,
                tuple(arguments.frame_ancestors),
                arguments.keep_days or None,
                arguments.teacher_port,
            )
        )
    return 0


def served(
    arguments: argparse.Namespace, work: Path, jobs: int, stack: contextlib.ExitStack
) -> tuple[Course, dict[str, tuple[opening.Opened, Path]]]:
    """The course, each exercise copied below `work`, with what has to be closed on the stack; and
    for the teacher each exercise with its file."""
    from classroom.web.hint_buttons import (
        hinter,
    )  # with itsdangerous, which other commands do without

    places = Places(jobs, arguments.queue, WAITING_SECONDS)
    kept: Recent[Decided] = Recent(KEPT_BYTES)
    has_network = keeps_network()
    # What tries with SQLite does so without the network; all exercises share it.
    around: dict[str, list[str]] = {
        SQLITE: [] if has_network else [*child.namespace(), "--"],
        POSTGRESQL: [],
    }
    processes = {
        product: stack.enter_context(contextlib.closing(asking.forks(TRIAL_SECONDS, work, words)))
        for product, words in around.items()
    }
    made, watched = [], {}
    all_folders = folders(arguments.exercise)
    if arguments.asked_file:
        check_apart([name for name, _ in all_folders], arguments.asked_file)
    for number, (name, folder) in enumerate(all_folders):
        found = opened(arguments, folder)
        trial = None if arguments.only_proved else trial_of(found, arguments.engine)
        trier = trier_of(trial, work / f"{number}.trial", processes) if trial else None
        by_trying = tried_tasks(found.given.tasks, trier, jobs) if trier else frozenset()
        if all(
            by.fault and (by.label, by.source) not in by_trying
            for task in found.given.tasks
            for by in task.references
        ):
            if name:
                log.error("%s is not offered: no task can be graded", shown(name))
                continue
            raise Fault(f"{shown(str(folder))}: no task can be graded")
        if trial is None and not arguments.only_proved:
            for task in found.given.tasks:
                if task.fault:
                    log.warning("task %s is not offered: %s", shown(task.label), shown(task.fault))
        place = work / str(number)
        place.mkdir()
        limits = found.limits._replace(output=MOST_BYTES / 1_000_000)
        budget = Budget(found.conflicts or CONFLICTS, found.work)
        material = copied(found.given, place, by_trying)
        asker = Asker(
            material,
            child.around(found.ratest, has_network),
            limits,
            budget,
            places,
            kept,
            foundation(
                material.digest, found.ratest, limits, budget, trial.digest if trial else ""
            ),
            trial,
            trier,
            trier or runner_of(found, work / f"{number}.run", processes),
        )
        path = place_of_log(name, folder, arguments.asked_file)
        stack.enter_context(held(path))
        kept_in = stack.enter_context(
            contextlib.closing(Log(path, arguments.asked_size, arguments.keep_days or None))
        )
        hand_ins = (
            stack.enter_context(contextlib.closing(HandIns(place_of_hand_ins(path))))
            if arguments.user_header
            else None
        )
        other_rows = work / f"{number}-{guard.FOLDER}"
        other_rows.mkdir()
        pythons = child.around(Path(sys.executable), has_network), child.around(
            Path(sys.executable), True
        )
        hints = hinter(found.given, material, other_rows, pythons, places, trial)
        made.append(Served(name, asker, kept_in, hand_ins, hints))
        watched[name] = (found, path)
    if not made:
        raise Fault(f"{shown(str(arguments.exercise))}: no task of any exercise can be graded")
    title = made[0].material.title if not made[0].name else shown(arguments.exercise.resolve().name)
    return Course(title, tuple(made)), watched


def opened(arguments: argparse.Namespace, folder: Path) -> opening.Opened:
    # The time of `exercise.toml` is that of a grading, for which nobody waits.
    words = argparse.Namespace(
        **{**vars(arguments), "exercise": folder, "time": arguments.time or SECONDS}
    )
    return opening.opened(words, SECONDS, CONFLICTS)


def trial_of(found: opening.Opened, engine: str | None) -> Trial | None:
    """How what `ratest` leaves open is tried; None where that can't be, which is told."""
    try:
        return tried.trial_of(found.given, TRIAL_SECONDS, engine)
    except Fault as fault:
        log.warning("%s: nothing is tried: %s", shown(str(found.given.folder)), fault)
        return None


def runner_of(found: opening.Opened, folder: Path, processes: Mapping[str, Forks]) -> Trier | None:
    """What runs a student's query by itself, where nothing is tried; None where that can't be."""
    try:
        return trier_of(tried.trial_of(found.given, TRIAL_SECONDS), folder, processes)
    except Fault:
        return None


def trier_of(trial: Trial, folder: Path, processes: Mapping[str, Forks]) -> Trier:
    folder.mkdir()
    return Trier(trial.material, folder, trial.options, processes[trial.material.product])


def tried_tasks(tasks: Sequence[Task], trier: Trier, jobs: int) -> frozenset[tuple[str, str]]:
    """The references that `ratest` refuses and the database answers, by the labels of their tasks
    and their files."""
    left = [by for task in tasks for by in task.references if by.fault and by.reference]
    with ThreadPoolExecutor(jobs) as threads:
        return frozenset(
            (task.label, task.source)
            for task, answers in zip(left, threads.map(lambda task: is_answered(task, trier), left))
            if answers
        )


def is_answered(task: Task, trier: Trier) -> bool:
    """Whether the database answers the reference; else why not is told."""
    text = tried.text_of(task.reference)
    try:
        found = trier.ask(text, text, agrees=True)
    except Fault as fault:
        why = str(fault)
    else:
        if not isinstance(found.outcome, Refusal):
            return True
        why = words.refusal(found.outcome, found.engine)
    log.error("task %s is not offered: %s: %s", shown(task.name), task.source, why)
    return False


def foundation(exercise: str, ratest: Path, limits: Limits, budget: Budget, engine: str) -> str:
    """What verdicts rest on: see `foundation_of`."""
    return foundation_of(
        exercise, digest(ratest.read_bytes()), engine, [*map(str, limits), *budget.options()]
    )


def keeps_network() -> bool:
    """Whether a call has to keep the network, which is then told."""
    if child.can_be_alone():
        return False
    log.warning(
        "this machine lets no process give up its network (unshare --map-root-user --net): `ratest`"
        " runs with it"
    )
    return True
