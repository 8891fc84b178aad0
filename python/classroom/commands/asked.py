"""Tells what is kept of what was asked at the page of `classroom serve`, and removes it.

With --forget the questions go, or those before a day, and with --hand-ins what was handed in as
well. What would go is told first; on a terminal it is asked whether to go on, elsewhere --yes says
so.

Exit status: 0 where it was told or removed, 1 where there is nothing, or nothing was removed, 2 for
words that can't be read. """
from __future__ import annotations

import argparse
import re
import sys
from datetime import date
from pathlib import Path

from classroom.commands import options
from classroom.exercise.exercise import RESULTS
from classroom.base.errors import Fault, shown
from classroom.web import forget as forgetting
from classroom.web.questions import LOG
from classroom.web.course import place_of_hand_ins

SUMMARY = "tell what is kept of what was asked, and remove it"


def add_arguments(parser: argparse.ArgumentParser) -> None:
    options.exercise(parser)
    parser.add_argument(
        "--asked-file", metavar="FILE", type=Path, help="what was asked (EXERCISE/results/asked.db)"
    )
    parser.add_argument("--forget", action="store_true", help="remove it")
    parser.add_argument(
        "--before",
        metavar="DAY",
        type=day,
        help="only what was asked before this day, as 2026-10-01",
    )
    parser.add_argument("--hand-ins", action="store_true", help="what was handed in, too")
    parser.add_argument("--yes", action="store_true", help="without asking")


def day(word: str) -> str:
    try:
        if re.fullmatch(r"\d{4}-\d\d-\d\d", word):
            return date.fromisoformat(word).isoformat()
    except ValueError:
        pass
    raise argparse.ArgumentTypeError("a day is wanted, as 2026-10-01")


def run(arguments: argparse.Namespace) -> int:
    log = arguments.asked_file or arguments.exercise / RESULTS / LOG
    if not log.is_file():
        raise Fault(f"there is no file {shown(str(log))}: classroom serve makes it")
    files = forgetting.Files(log, place_of_hand_ins(log))
    for line in forgetting.amounts(files, arguments.before).lines():
        print(line)
    if not arguments.forget:
        return 0
    going = (
        "what was asked and handed in"
        if arguments.hand_ins
        else "what was asked, and not what was handed in,"
    )
    print(
        f"{going} {f'before {arguments.before} ' if arguments.before else ''}is removed", flush=True
    )
    if not arguments.yes and not agreed():
        raise Fault("nothing was removed: --yes removes it without asking")
    forgetting.forget(files, arguments.before, arguments.hand_ins)
    return 0


def agreed() -> bool:
    """Whether who sits at the terminal says yes; no where there is none."""
    if not sys.stdin.isatty():
        return False
    print("go on? [yes/no] ", end="", flush=True)
    return sys.stdin.readline().strip().lower() == "yes"
