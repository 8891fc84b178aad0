"""A query in SQLite's words, where SQLite refuses the student's own."""
from __future__ import annotations

import sqlite3
from collections.abc import Collection

from classroom.engines.engine import ANSWER, REFERENCE, Bars, Refused, Stopped
from classroom.exercise.typed_rows import Material
from classroom.sql.rewrite import rewritten, whole_table
from classroom.verdict.verdict import Cause

REWRITTEN = {
    (ANSWER,): " after rewriting the answer",
    (REFERENCE,): " after rewriting the reference",
    (REFERENCE, ANSWER): " after rewriting both",
}


def label(version: str, which: Collection[int]) -> str:
    """What an engine is called in a verdict, with what of the two queries was rewritten for it."""
    return f"sqlite {version}{REWRITTEN.get(tuple(sorted(which)), '')}"


def rewriting(text: str, stopped: Stopped, columns: dict[str, dict[str, str]]) -> str | None:
    """A text that SQLite refuses in its words; None where it has another fault, or no words for
    it."""
    if isinstance(stopped, Bars):
        return rewritten(text, columns) if whole_table(text) else None
    if isinstance(stopped, Refused) and stopped.cause in (Cause.SYNTAX, Cause.NAME):
        return rewritten(text, columns)
    return None


def declared(database: sqlite3.Connection, material: Material) -> dict[str, dict[str, str]]:
    """The columns of tables and views, without those that `*` doesn't show, with their types."""
    names = [*material.names(), *(view.name for view in material.views)]
    return {
        name.lower(): {
            str(column).lower(): str(kind).upper()
            for column, kind in database.execute(
                "SELECT name, type FROM pragma_table_xinfo(?) WHERE hidden <> 1", (name,)
            )
        }
        for name in names
    }
