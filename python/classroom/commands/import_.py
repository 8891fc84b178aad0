"""Makes the schema and the rows of an exercise from a database.

SOURCE is an SQLite file or a PostgreSQL database as `psql -d` takes it: a name, a URI, or a text as
"host=.. dbname=..". EXERCISE gets schema.sql and one CSV file a table, of all tables or of those
that are named; of PostgreSQL of those on the search path. It is made where it is not there, and
files of these names in it are written over. Tables stand in the order in which they were made, rows
in that of the primary key, else in the database's own.

What can't be carried over, and what becomes of a type, is told on standard error by table and
column. With --rows the first hundred rows of each table go to EXERCISE/guard, where they keep
`classroom mistakes` and hints from what holds on a few rows by chance.

CHECKs are written as far as `ratest` has their form and means the same by it. Nothing in the
database is changed.

Exit status: 0 where the files are written, 1 where something was refused, which one line tells, 2
for words that can't be read. """
from __future__ import annotations

import argparse
import logging
import re
from pathlib import Path

from classroom.exercise.importing.export import export
from classroom.exercise.importing.source import opened
from classroom.exercise import guards as guard
from classroom.sql.schema import MOST_ROWS

SUMMARY = "make an exercise of a database"
GUARD_ROWS = 100  # of each table
log = logging.getLogger(__name__)


def add_arguments(parser: argparse.ArgumentParser) -> None:
    parser.add_argument("source", metavar="SOURCE", help="an SQLite file, or a PostgreSQL database")
    parser.add_argument(
        "exercise", metavar="EXERCISE", type=Path, help="the folder that is written"
    )
    parser.add_argument(
        "tables", metavar="TABLE", nargs="*", help="the tables, all where none is named"
    )
    parser.add_argument(
        "--rows",
        metavar="N",
        type=rows,
        help="the first N rows of each table, and the rows that they refer to",
    )


def rows(word: str) -> int:
    if not re.fullmatch("[0-9]{1,4}", word) or not 1 <= int(word) <= MOST_ROWS:
        raise argparse.ArgumentTypeError(f"a number from 1 to {MOST_ROWS} is wanted")
    return int(word)


def run(arguments: argparse.Namespace) -> int:
    for note in export(
        opened(arguments.source), arguments.exercise, arguments.tables, arguments.rows
    ):
        log.warning("%s", note)
    if arguments.rows is not None and arguments.rows < GUARD_ROWS:
        export(
            opened(arguments.source),
            arguments.exercise / guard.FOLDER,
            arguments.tables,
            GUARD_ROWS,
        )
    return 0
