"""Words of the command line that several commands take."""
from __future__ import annotations

import argparse
import re
from pathlib import Path


def count(word: str) -> int:
    if not re.fullmatch("[0-9]{1,18}", word) or int(word) < 1:
        raise argparse.ArgumentTypeError("a whole number from 1 is wanted")
    return int(word)


def seconds(word: str) -> float:
    try:
        value = float(word)
    except ValueError:
        value = 0.0
    if not 0.001 <= value <= 1e6:
        raise argparse.ArgumentTypeError("a number of seconds is wanted")
    return value


def port(word: str) -> int:
    if not word.isascii() or not word.isdigit() or int(word) > 65535:
        raise argparse.ArgumentTypeError("a number from 0 to 65535 is wanted")
    return int(word)


def exercise(parser: argparse.ArgumentParser, note: str = "") -> None:
    parser.add_argument(
        "exercise", metavar="EXERCISE", type=Path, help=f"the folder of the exercise{note}"
    )


def build(parser: argparse.ArgumentParser, *names: str) -> None:
    """Whether the programs of these names are proved first."""
    parser.add_argument(
        "--build",
        dest="build",
        action="store_const",
        const=names,
        default=(),
        help=f"prove and build {' and '.join(names)} first, where that isn't done yet",
    )


def jobs(parser: argparse.ArgumentParser, note: str = "") -> None:
    parser.add_argument(
        "--jobs",
        metavar="N",
        type=count,
        help=f"calls at once{note}; all cores where it isn't said",
    )


def limits(
    parser: argparse.ArgumentParser, noun: str, time: int, conflicts: int | None = None
) -> None:
    """What one call may take. Where a word isn't said, `exercise.toml` says it, else what is told
    here."""
    parser.add_argument("--time", metavar="S", type=seconds, help=f"seconds for {noun} ({time})")
    parser.add_argument(
        "--memory", metavar="MB", type=count, default=2000, help=f"megabytes for {noun} (2000)"
    )
    parser.add_argument("--work", metavar="N", type=count, help="as `ratest` takes it")
    parser.add_argument(
        "--conflicts",
        metavar="N",
        type=count,
        help=f"as `ratest` takes it{f' ({conflicts})' if conflicts else ''}",
    )
