"""Why PostgreSQL refuses a query, or is not even asked."""
from __future__ import annotations

from classroom.engines.engine import Bars, Refused, TooMuch
from classroom.engines.only_reads import MOST_TEXT
from classroom.sql.clock import asked_in_postgresql
from classroom.sql.lookup import begins_as_query
from classroom.verdict.verdict import Cause

# Tables, columns, functions and aliases that are nowhere or are ambiguous.
UNKNOWN = frozenset({"42P01", "42703", "42883", "42702", "42P09", "42725", "3F000"})


def cause_of(state: str) -> Cause:
    """Why PostgreSQL doesn't prepare a text, by the SQLSTATE."""
    if state in UNKNOWN:
        return Cause.NAME
    return Cause.SYNTAX if state[:2] in ("22", "42") else Cause.UNSUPPORTED


def is_of_rows(state: str) -> bool:
    """Whether a query fails by its data or by how many rows a subquery has, and not by its text."""
    return state[:2] in ("21", "22")


def look(which: int, text: str, *views: str) -> None:
    """Refuses a text that is no query, or asks the clock as one of the views that it names does,
    before the server gets it."""
    if len(text.encode("utf-8", "replace")) > MOST_TEXT:
        raise TooMuch(which, "size of a value")
    if "\0" in text:
        raise Refused(which, "a byte that is no character of a text", text.index("\0"))
    if not begins_as_query(text):
        raise Bars(which, "it is no query, which begins with SELECT, WITH, VALUES or TABLE")
    for one in (text, *views):
        look_for_clock(which, asked_in_postgresql(one))


def look_for_clock(which: int, found: str) -> None:
    """Refuses a query by what in it asks the clock."""
    if found:
        raise Bars(which, f"it asks the clock: {found}")
