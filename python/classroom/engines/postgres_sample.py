"""Rows of a schema in PostgreSQL, where that database decides: the tables of a trial, and a session
that only reads."""
from __future__ import annotations

import time
from typing import Any

from classroom.exercise.rows import Pool, Row
from classroom.engines import tie_keys
from classroom.engines.sample import MOST_ROWS, Listed
from classroom.verdict.compare import rounded
from classroom.engines.engine import ANSWER, Stopped
from classroom.exercise.typed_rows import Material
from classroom.engines.postgres import Server, literal
from classroom.engines.postgres_refusals import look
from classroom.engines.tables_read import in_one_schema

QUERY_SECONDS = 1.0
STEPS = 250_000  # that a second counts as


class Tables(Server):
    """The tables of a material, in which one part of one pool is at a time."""

    def __init__(self, material: Material, loader: str, asker: str) -> None:
        super().__init__(material, loader)
        try:
            self.askers = [self.connected(asker, "engine_asker", QUERY_SECONDS)]
            self.make_tables()
        except BaseException:
            self.close()
            raise
        self.held: tuple[Database, frozenset[Row], bool] | None = None

    def holding(self, pool: Pool) -> Database:
        return Database(self, pool)


class Database:
    """A pool whose parts these tables hold."""

    def __init__(self, tables: Tables, pool: Pool) -> None:
        self.tables, self.pool = tables, pool
        self.all_steps = 0

    def lawful(self) -> frozenset[Row]:
        """Each row is put by itself: what is of another type, or breaks a rule, is left out with
        what refers to it."""
        self.tables.loader.execute(";".join(f"DELETE FROM {name}" for name in self.tables.names))
        self.tables.held = None
        broken = set()
        for row in sorted(self.pool.lawful):
            try:
                self.tables.loader.execute(self.put([row]))
            except self.tables.psycopg.Error:
                broken.add(row)
        return frozenset(self.pool.lawful - self.pool.with_sources(broken))

    def put(self, rows: list[Row]) -> str:
        """The statement that puts rows of one table."""
        held = self.pool.held[rows[0].table]
        values = ", ".join(f"({', '.join(map(literal, held.rows[row.number]))})" for row in rows)
        return f"{self.tables.begins[rows[0].table]}{values}"

    def written(self, query: str) -> str:
        return in_one_schema(query, self.tables.material)

    def untied(self, query: str) -> list[str]:
        return list(tie_keys.untied_texts(self.written(query), self.pool, "postgres"))

    def load(self, part: frozenset[Row], backwards: bool = False) -> None:
        if self.tables.held == (self, part, backwards):
            return
        texts = ["BEGIN", *(f"DELETE FROM {name}" for name in self.tables.names)]
        for at in range(len(self.pool.held)):
            rows = sorted((row for row in part if row.table == at), reverse=backwards)
            if rows:
                texts.append(self.put(rows))
        self.tables.loader.execute(";".join([*texts, "COMMIT"]))
        self.tables.held = (self, part, backwards)

    def answer(self, text: str) -> Listed:
        begun = time.monotonic()
        try:
            look(ANSWER, text)
            cursor: Any = self.tables.askers[0].execute(text, prepare=True)
            lines = cursor.fetchall() if cursor.description else []
        except (Stopped, self.tables.psycopg.Error, MemoryError):
            return None
        finally:
            self.all_steps += round((time.monotonic() - begun) * STEPS)
        if cursor.description is None or len(lines) > MOST_ROWS:
            return None
        return len(cursor.description), rounded(lines)
