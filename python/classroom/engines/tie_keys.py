"""The keys by which SQLite and PostgreSQL order tied rows: a hash of a seed and of what the rows
are known by."""
from __future__ import annotations

import hashlib
import sqlite3
from collections.abc import Iterator, Sequence
from typing import Any

from classroom.exercise.rows import Pool
from classroom.sql.ties import JOINED, KEY_LENGTH, KeyOf, untied

FUNCTION = "ratest_tie"
# Each up and down, so that two tied rows come in both orders, and of three each in the middle but
# for one time in 3 ** 7.
SEEDS = 8
ANY_SEED = 727_115_033  # stands for a seed in a text that is written once for all


def add_functions(database: sqlite3.Connection) -> None:
    database.create_function(FUNCTION, -1, hashed, deterministic=True)
    made: Any = Joined  # whose steps take as many values as they get
    database.create_aggregate(JOINED, -1, made)


def hashed(*values: object) -> str:
    whole = repr(values).encode("utf-8", "replace")
    return hashlib.blake2b(whole, digest_size=KEY_LENGTH // 2).hexdigest()


class Joined:
    """GROUP_CONCAT in the order of the keys that stand before its values."""

    def __init__(self) -> None:
        self.found: list[tuple[str, str]] = []

    def step(self, *values: Any) -> None:
        value, separator = values if len(values) > 1 else (*values, ",")
        if value is not None:
            self.found.append((value, "" if separator is None else str(separator)))

    def finalize(self) -> str | None:
        is_down = bool(self.found) and self.found[0][0][0] == "1"
        made = [
            part
            for value, separator in sorted(self.found, reverse=is_down)
            for part in (separator, value[1 + KEY_LENGTH :])
        ]
        return "".join(made[1:]) if made else None


def key_of(dialect: str, seed: int) -> KeyOf:
    def written(known: Sequence[str]) -> str:
        if dialect == "sqlite":
            return f"{FUNCTION}({seed}, {', '.join(known)})"
        return f"MD5(CAST(ROW({', '.join(known)}) AS TEXT) || '{seed}')"

    return written


def untied_texts(query: str, pool: Pool, dialect: str, seeds: int = SEEDS) -> Iterator[str]:
    """The query with the keys of each seed; nothing where no order of it chooses rows."""
    columns = {
        held.table.name.lower(): [column.name for column in held.table.columns]
        for held in pool.held
    }
    if str(ANY_SEED) in query:
        return
    ways = [
        untied(query, dialect, columns, key_of(dialect, ANY_SEED), is_down)
        for is_down in (False, True)
    ]
    for seed in range(seeds):
        for text in ways:
            if text is not None:
                yield text.replace(str(ANY_SEED), str(seed))
