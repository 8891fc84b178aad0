"""SQLite in memory for texts that others wrote: they read tables, and nothing of them grows without
a bound.

The time of a query is the caller's to bound, by a progress handler, and that of the process around
it by `prlimit`. """
from __future__ import annotations

import sqlite3

MOST_TEXT = 65_536  # bytes of a query, and of a value
READ, SELECT, FUNCTION, RECURSIVE = 20, 21, 31, 33
HEAP = 200_000_000
# Without a bound of their own (printf, format), another at each call, or of this program.
BARRED = frozenset(
    {
        "printf",
        "format",
        "current_date",
        "current_time",
        "current_timestamp",
        "random",
        "randomblob",
        "load_extension",
        "fts3_tokenizer",
        "sqlite_compileoption_get",
        "sqlite_compileoption_used",
        "sqlite_source_id",
        "sqlite_version",
        "changes",
        "total_changes",
        "last_insert_rowid",
        "sqlite_log",
        "sqlite_offset",
    }
)
OWN = ("sqlite_", "pragma_", "dbstat", "bytecode", "tables_used", "fts")
LIMITS = (
    (sqlite3.SQLITE_LIMIT_LENGTH, MOST_TEXT),
    (sqlite3.SQLITE_LIMIT_SQL_LENGTH, MOST_TEXT),
    (sqlite3.SQLITE_LIMIT_COLUMN, 100),
    (sqlite3.SQLITE_LIMIT_EXPR_DEPTH, 200),
    (sqlite3.SQLITE_LIMIT_COMPOUND_SELECT, 50),
    (sqlite3.SQLITE_LIMIT_VDBE_OP, 25_000),
    (sqlite3.SQLITE_LIMIT_ATTACHED, 0),
    (sqlite3.SQLITE_LIMIT_LIKE_PATTERN_LENGTH, 100),
    (sqlite3.SQLITE_LIMIT_VARIABLE_NUMBER, 200),
    (sqlite3.SQLITE_LIMIT_WORKER_THREADS, 0),
    (sqlite3.SQLITE_LIMIT_FUNCTION_ARG, 100),
)
OTHERWISE = "it does something else than to read"


def in_memory() -> sqlite3.Connection:
    """A database to which tables and rows can be put."""
    made = sqlite3.connect(":memory:", isolation_level=None, cached_statements=256)
    for word in (
        "temp_store=memory",
        f"hard_heap_limit={HEAP}",
        "foreign_keys=off",
        "journal_mode=off",
        "trusted_schema=off",
        "recursive_triggers=off",
        "ignore_check_constraints=on",
    ):
        made.execute(f"PRAGMA {word}")
    return made


def bound(connection: sqlite3.Connection) -> None:
    """Bounds the sizes of queries and values from now on."""
    for what, most in LIMITS:
        connection.setlimit(what, most)


def barred(action: int, one: str | None, two: str | None) -> str:
    """Why what the authorizer is asked about is refused; empty where it is allowed."""
    if action in (SELECT, RECURSIVE):
        return ""
    if action == READ:
        return f"it reads {one}" if (one or "").lower().startswith(OWN) else ""
    if action == FUNCTION:
        return f"it calls {two}" if (two or "").lower() in BARRED else ""
    return OTHERWISE
