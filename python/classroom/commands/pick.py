"""Picks of many rows the few that tell the usual mistakes in each task.

SOURCE is an SQLite file or a PostgreSQL database, as `classroom import` takes it, or a folder with
schema.sql and a CSV file a table, which may have any number of rows. EXERCISE is a folder with
tasks: TASK/reference.sql and, if there are some, TASK/answers/*.sql. It gets schema.sql and the CSV
files, which are written over; where it has no tasks and SOURCE is an exercise, it gets that one's.

The mutants of each reference (see `classroom mutants --help`) and the answers are run against it on
lawful parts of at most 2,000 rows: the first ones by the primary key, then others at random with
the rows that they refer to, until a whole pass tells no mutant that was not told before. Where a
limit of work or conflicts is passed the parts are smaller. Queries that `ratest` doesn't read a
database tries over the same parts, unless --only-proved is given. Of the union of the witnesses
each row goes without which every mistake is still told by a witness as small. In the end all are
graded once more on the picked rows.

The same seed picks the same rows. What is stopped, or killed, goes on where it was.

Exit status: 0 where the rows are picked, 1 where something was refused or a query has no verdict in
the end, which standard error tells, 2 for words that can't be read. """
from __future__ import annotations

import argparse
import sys

from classroom.grading import open as opening
from classroom.commands import options
from classroom.grading import trials as tried
from classroom.base.errors import library

SUMMARY = "pick the few rows that tell every mistake"


def add_arguments(parser: argparse.ArgumentParser) -> None:
    parser.add_argument("source", metavar="SOURCE", help="a database, or the folder of an exercise")
    options.exercise(parser, " that gets the rows")
    parser.add_argument(
        "--rows",
        metavar="N",
        type=options.count,
        help="at most N rows, those that tell the most; as many as are needed where it isn't said",
    )
    parser.add_argument(
        "--seed", metavar="N", type=options.count, default=1, help="of the rows at random (1)"
    )
    options.jobs(parser)
    options.build(parser, "ratest", "ratest_plus")
    parser.add_argument(
        "--work",
        metavar="N",
        type=options.count,
        default=2_000_000,
        help="as `ratest` takes it: what passes it is asked over a smaller part (2000000)",
    )
    parser.add_argument(
        "--conflicts", metavar="N", type=options.count, default=1000, help="in the same way (1000)"
    )
    tried.add_arguments(parser)


def run(arguments: argparse.Namespace) -> int:
    library("sqlglot", "python3-sqlglot")
    from classroom.picking.pick import Wanted, pick

    limits = opening.options_of(arguments.work, arguments.conflicts)
    wanted = Wanted(
        arguments.rows,
        str(arguments.seed),
        arguments.jobs,
        limits,
        sys.stderr.isatty(),
        arguments.only_proved,
        arguments.engine,
    )
    return pick(arguments.source, arguments.exercise, wanted)
