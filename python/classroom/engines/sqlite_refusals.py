"""Why SQLite refuses a query over any rows, by what it says."""
from __future__ import annotations

import re

from classroom.engines.engine import Refused, Stopped, TooMuch
from classroom.sql.tokens import tokens
from classroom.verdict.verdict import Cause

# Of what SQLite says where it refuses a text: a name that is nowhere; its grammar.
UNKNOWN = ("no such table", "no such column", "no such function", "ambiguous column name")
WRONG = (
    "syntax error",
    "unrecognized token",
    "incomplete input",
    "the same number of result columns",
    "misuse of",
    "wrong number of arguments",
    "columns assigned",
    "row value misused",
    "no tables specified",
    "HAVING clause",
    "GROUP BY clause",
    "ORDER BY term",
    "sub-select returns",
    "values for",
    "circular reference",
    "RIGHT and FULL OUTER JOIN",
    "cannot join using column",
    "NATURAL join",
    "join clause is required",
    "all VALUES must have the same number of terms",
    "duplicate WITH table name",
)
# Its own limits, and those that `only_reads` sets.
LIMITS = ("too large", "too many", "too complex", "too long", "stack overflow", "out of memory")


def stopped_by(which: int, failure: str, text: str) -> Stopped:
    """Why a query that SQLite refuses over any rows is refused."""
    if any(word in failure for word in UNKNOWN):
        return Refused(which, *told(failure, text), Cause.NAME)
    if any(word in failure for word in WRONG):
        return Refused(which, *told(failure, text), Cause.SYNTAX)
    if any(word in failure for word in LIMITS):
        return TooMuch(which, f"its own: {failure}")
    return Refused(which, *told(failure, text), Cause.UNSUPPORTED)


def told(failure: str, text: str) -> tuple[str, int | None]:
    """A message of SQLite with the place that it names by what stands there."""
    near = re.match(r'near "(.*)": syntax error\Z', failure, re.DOTALL)
    named = re.match(
        r"(?:no such (?:column|table|function)|ambiguous column name): (.*)\Z", failure, re.DOTALL
    )
    wanted = near or named
    place = None
    if wanted:
        word = wanted[1].split(".")[-1].lower()
        found = [
            token.begin
            for token in tokens(text)
            if token.text.lower() == word or token.name.lower() == word
        ]
        place = found[0] if len(found) == 1 else None
    return failure, place
