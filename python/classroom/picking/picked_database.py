"""The rows of a source as its database has them, of which a part can be taken: `full.db` or
`full.sql`."""
from __future__ import annotations

import logging
from collections.abc import Collection, Mapping
from dataclasses import dataclass
from pathlib import Path

from classroom.exercise.importing.snapshot import DATABASE, SCRIPT
from classroom.exercise.importing.source import opened
from classroom.base.errors import Fault, shown
from classroom.exercise.rows import Pool, Row
from classroom.base.files import write
from classroom.exercise import material as full
from classroom.exercise import same_rows
from classroom.exercise.typed_rows import Material

FULL = (DATABASE, SCRIPT)
log = logging.getLogger(__name__)


@dataclass(frozen=True)
class Picture:
    """Of what it is taken: a name that `opened` takes, or the bytes of a script; neither where
    there is none."""

    pool: Pool
    database: str = ""
    script: bytes = b""

    def part(self, rows: Collection[Row]) -> tuple[str, bytes] | None:
        """The name and the bytes of the file that has these rows alone; None where there is none,
        which is told."""
        numbers = {
            held.table.name: sorted(row.number + 1 for row in rows if row.table == at)
            for at, held in enumerate(self.pool.held)
        }
        if self.script:
            return SCRIPT, full.part_of(self.script, numbers)
        return self.of_database(numbers) if self.database else None

    def of_database(self, numbers: Mapping[str, list[int]]) -> tuple[str, bytes] | None:
        database = opened(self.database)
        tables = {
            table.written: table
            for table in database.tables(()).values()
            if table.written in numbers
        }
        name, made = database.full(
            list(tables.values()),
            {table.name: numbers[written] for written, table in tables.items()},
        )
        database.close()
        if isinstance(made, bytes):
            return name, made
        log.warning("%s is not written: %s", name, made)
        return None

    def material(self, work: Path) -> Material | None:
        """All rows to be tried; None where there is no picture."""
        whole = self.part(
            [
                Row(at, number)
                for at, held in enumerate(self.pool.held)
                for number in range(len(held.rows))
            ]
        )
        if whole is None:
            return None
        folder = work / "picture"
        folder.mkdir()
        write(folder / whole[0], whole[1])
        return full.read(folder)

    def keep(self, folder: Path, rows: Collection[Row]) -> None:
        """Writes the file of some rows into the folder of an exercise, in place of what is
        there."""
        made = self.part(rows)
        for name in FULL:
            (folder / name).unlink(missing_ok=True)
        if made:
            write(folder / made[0], made[1])


def of_source(source: str, pool: Pool) -> Picture:
    """The picture of a database, or the one that an exercise has of the rows of its CSV files."""
    place = Path(source)
    if not (place / "schema.sql").is_file():
        return Picture(pool, source)
    held = full.read(place)
    if held is None:
        return Picture(pool)
    rows = {of.table.name: of.rows for of in pool.held}
    where = same_rows.difference(held, [of.table for of in pool.held], rows)
    if where:
        log.warning(f"%s: {full.OTHER_ROWS}", shown(source), where)
        return Picture(pool)
    if (place / DATABASE).is_file():
        return Picture(pool, str(place / DATABASE))
    try:
        return Picture(pool, script=(place / SCRIPT).read_bytes())
    except OSError as fault:
        raise Fault(f"{shown(str(place / SCRIPT))}: {fault.strerror}") from None
