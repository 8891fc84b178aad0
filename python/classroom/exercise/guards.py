"""The guard of an exercise: other rows of its schema, in EXERCISE/guard, as those that it was
picked of.

It is never served and never shown: a change that agrees on the exercise's rows and not on these is
told to nobody. """
from __future__ import annotations

import itertools
import logging
from collections.abc import Collection
from pathlib import Path

from classroom.base.errors import Fault, shown
from classroom.exercise import parts
from classroom.exercise import sources
from classroom.exercise.rows import Pool, Row
from classroom.base.files import write

FOLDER = "guard"
MOST_ROWS = 500
log = logging.getLogger(__name__)


def keep(exercise: Path, pool: Pool, rows: Collection[Row], seed: str) -> None:
    """Writes the rows of an exercise with more of the pool that they were taken of, where there are
    more."""
    wanted = itertools.chain(sorted(rows), parts.chosen(pool, MOST_ROWS, seed))
    chosen = parts.filled(pool, wanted, max(MOST_ROWS, len(rows)))
    if len(chosen) <= len(rows):
        return
    folder = exercise / FOLDER
    folder.mkdir(exist_ok=True)
    for name, text in pool.files(chosen).items():
        write(folder / name, text)


def kept(exercise: Path) -> Pool | None:
    """The rows of the guard; None where there is none, or one of other tables, which is told."""
    folder = exercise / FOLDER
    if not (folder / "schema.sql").is_file():
        return None
    try:
        pool, own = sources.of_exercise(folder), sources.of_exercise(exercise)
    except (Fault, OSError) as fault:
        log.warning("%s: not used: %s", shown(str(folder)), fault)
        return None
    if [held.table for held in pool.held] != [held.table for held in own.held]:
        log.warning("%s: not used: its tables are not those of the exercise", shown(str(folder)))
        return None
    return pool
