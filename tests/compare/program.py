"""Calls of `ratest` and `ratest_plus` on a case, each in a folder of its own and with limits."""
from __future__ import annotations

import os
import resource
import subprocess
import tempfile
from contextlib import contextmanager
from dataclasses import dataclass
from pathlib import Path
from typing import Iterator, Optional, Sequence

from .model import Case, csv_text, schema
from .query import Query, Writer

TOP = Path(__file__).resolve().parents[2]
SECONDS = 60.0
MEMORY = 4 << 30
NO_VARIABLES: dict[str, str] = {}
# A file system in memory: on a disk, making and removing the folder takes longer than all else of a
# small case.
IN_MEMORY = "/dev/shm"


def program(name: str) -> str:
    """The proved program, or the one that the environment names, as RATEST, RATEST_PLUS and
    MEASURE."""
    return os.environ.get(name.upper()) or str(TOP / "crates" / name / "out" / name)


class Passed(Exception):
    """A case that is left out, with the reason in a word: it is counted by itself."""


def missing() -> Optional[str]:
    """What to tell where a program is not there."""
    for name in ("ratest", "ratest_plus", "measure"):
        if not os.access(program(name), os.X_OK):
            return (
                f"{program(name)} is not there: `rt ci` proves and builds it, or"
                f" {name.upper()} names another"
            )
    return None


@dataclass(frozen=True)
class Answer:
    # None where the time was over.
    status: Optional[int]
    out: bytes
    err: bytes


def limit_memory() -> None:
    """Of this process and all that it starts. A limit set between fork and exec would take most of
    a call's time."""
    resource.setrlimit(resource.RLIMIT_AS, (MEMORY, MEMORY))


def call(command: Sequence[str], seconds: float = SECONDS) -> Answer:
    try:
        done = subprocess.run(
            command,
            stdin=subprocess.DEVNULL,
            capture_output=True,
            timeout=seconds,
            env=NO_VARIABLES,
            close_fds=False,
            check=False,
        )
    except subprocess.TimeoutExpired as late:
        return Answer(None, late.stdout or b"", late.stderr or b"")
    return Answer(done.returncode, done.stdout, done.stderr)


def query_text(query: Query) -> str:
    return Writer("ratest").query(query) + "\n"


def place_of_folders() -> Optional[str]:
    """Where folders are made: in memory where that can be had, unless TMPDIR says where; else where
    Python makes them."""
    return (
        None if "TMPDIR" in os.environ or not os.access(IN_MEMORY, os.W_OK | os.X_OK) else IN_MEMORY
    )


@contextmanager
def folder_of(case: Case) -> Iterator[Path]:
    """A folder with `schema.sql`, a CSV file a table, `1.sql` and `2.sql`."""
    with tempfile.TemporaryDirectory(prefix="ratest-compare-", dir=place_of_folders()) as place:
        folder = Path(place)
        (folder / "schema.sql").write_text(schema(case, "ratest"), encoding="utf-8")
        for table in case.tables:
            (folder / f"{table.name}.csv").write_text(
                csv_text(table, case.rows[table.name]), encoding="utf-8"
            )
        (folder / "1.sql").write_text(query_text(case.first), encoding="utf-8")
        (folder / "2.sql").write_text(query_text(case.second), encoding="utf-8")
        yield folder


def files(folder: Path) -> list[str]:
    return [f"{folder}/schema.sql", f"{folder}", f"{folder}/1.sql", f"{folder}/2.sql"]


def ratest(folder: Path, options: Sequence[str] = (), seconds: float = SECONDS) -> Answer:
    return call([program("ratest"), *files(folder), *options], seconds)


def ratest_plus(command: Sequence[str], seconds: float = SECONDS) -> Answer:
    return call([program("ratest_plus"), *command], seconds)
