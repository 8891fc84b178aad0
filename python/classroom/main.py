"""The command `classroom`: reads the words and runs the subcommand.

A subcommand is a module in `classroom.commands` with SUMMARY, `add_arguments(parser)` and
`run(arguments)`, which gives the exit status. No module imports a library that Debian doesn't ship
with Python before it needs it, so a missing one stops only its subcommand. """
from __future__ import annotations

import argparse
import importlib
import logging
import os
import sys
from collections.abc import Sequence

from classroom.base import log as tell
from classroom.commands import COMMANDS
from classroom.base.errors import Fault, told
from classroom.engines.ratest import prove
from ratest.installed import VERSION

USAGE, FAULT, STOPPED = 2, 1, 130
log = logging.getLogger("classroom.main")


def parser() -> argparse.ArgumentParser:
    top = argparse.ArgumentParser(
        prog="classroom",
        allow_abbrev=False,
        description="From a school's database to a graded class.",
        epilog=(
            "`classroom COMMAND --help` tells more of each. docs/TEACHING.md begins with a first"
            " class."
        ),
    )
    top.add_argument("--version", action="version", version=f"classroom {VERSION}")
    subparsers = top.add_subparsers(metavar="COMMAND", dest="command", required=True)
    for name, module_name in COMMANDS.items():
        module = importlib.import_module(module_name)
        sub = subparsers.add_parser(
            name,
            allow_abbrev=False,
            help=module.SUMMARY,
            description=module.__doc__,
            formatter_class=argparse.RawDescriptionHelpFormatter,
        )
        module.add_arguments(sub)
        sub.add_argument(
            "--verbose", action="store_true", help="also tell on standard error what is done"
        )
        sub.set_defaults(run=module.run)
    return top


def main(words: Sequence[str] | None = None) -> int:
    """Runs the command on these words, else on the program's own; gives the exit status."""
    arguments = parser().parse_args(words)
    tell.begin(arguments.verbose)
    try:
        if getattr(arguments, "build", ()):
            prove(arguments.build)
        status: int = arguments.run(arguments)
        sys.stdout.flush()
        return status
    except Fault as fault:
        log.error("%s", fault)
    except BrokenPipeError:
        # Whoever reads what is printed has gone; nothing more can be told.
        os.dup2(os.open(os.devnull, os.O_WRONLY), sys.stdout.fileno())
    except OSError as fault:
        log.error("%s", told(fault))
    except KeyboardInterrupt:
        log.error("stopped; the same command goes on from here")
        return STOPPED
    return FAULT
