"""What a server has of trials that were ended from outside, and whether it is there itself: the
schemas that they left are removed by the next trial.

A session holds an advisory lock as long as it lives; a schema without one belongs to no trial. """
from __future__ import annotations

import time
from contextlib import suppress
from typing import Any

from classroom.sql.schema import quoted

# Milliseconds that is waited for a query of a killed trial that still runs.
WAIT = 5_000


def lock_of(schema: str) -> int:
    """The number of the lock: the hexadecimal word that ends the name."""
    return int(schema.rsplit("_", 1)[1][:12], 16)


def hold(session: Any, schema: str) -> None:
    """Says that the schema is in use while the session lives."""
    session.execute("SELECT pg_advisory_lock(%s)", (lock_of(schema),))


def drop(session: Any, prefix: str, error: type[Exception]) -> None:
    """Drops the schemas with names of this kind that nobody holds; `error` is the library's."""
    session.execute(f"SET lock_timeout = {WAIT}")
    named = session.execute(
        "SELECT nspname FROM pg_namespace WHERE nspname ~ %s", (rf"^{prefix}\d+_[0-9a-f]+$",)
    )
    for (name,) in named.fetchall():
        lock = (lock_of(name),)
        if not session.execute("SELECT pg_try_advisory_lock(%s)", lock).fetchone()[0]:
            continue
        # Where a query of it still runs, the next trial removes it.
        with suppress(error):
            session.execute(f"DROP SCHEMA IF EXISTS {quoted(name)} CASCADE")
        session.execute("SELECT pg_advisory_unlock(%s)", lock)
    session.execute("SET lock_timeout = 0")


def is_there(psycopg: Any, address: str, seconds: float) -> bool:
    """Whether the server takes a session, at once or within so many seconds."""
    until = time.monotonic() + seconds
    while True:
        try:
            with psycopg.connect(address, connect_timeout=10) as session:
                session.execute("SELECT 1")
            return True
        except psycopg.Error:
            if time.monotonic() > until:
                return False
            time.sleep(0.5)
