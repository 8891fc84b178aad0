"""The database that a word names."""
from __future__ import annotations

import re
from pathlib import Path

from classroom.exercise.importing.model import Source
from classroom.base.errors import Fault, shown


def opened(source: str) -> Source:
    """A file where there is one of this name, else PostgreSQL's."""
    is_connection = "=" in source or re.match("postgres(ql)?://", source)
    if not is_connection and Path(source).is_file():
        from classroom.exercise.importing.from_sqlite import Sqlite

        return Sqlite(Path(source))
    if not is_connection and ("/" in source or re.search(r"\.(db3?|sqlite3?)$", source)):
        raise Fault(f"there is no file {shown(source)}")
    from classroom.exercise.importing.from_postgres import Postgres

    return Postgres(source)
