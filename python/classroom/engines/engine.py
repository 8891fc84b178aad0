"""What an engine does: it holds a part of the rows and answers the two queries on it."""
from __future__ import annotations

from collections.abc import Iterator, Sequence
from typing import Protocol

from classroom.verdict.compare import Answer
from classroom.exercise.part_masks import Mask
from classroom.verdict.verdict import Cause

# What one query may take.
QUERY_SECONDS = 2.0
MOST_LINES = 100_000
REFERENCE, ANSWER = 0, 1


class Stopped(Exception):
    """Why a query has no answer on any rows."""

    def __init__(self, which: int, message: str = "", place: int | None = None) -> None:
        super().__init__(message)
        self.which = which
        self.message = message
        self.place = place  # the character of the query, from 0
        self.engine = ""  # its label, where it is known


class Refused(Stopped):
    """The engine refuses the query over any rows."""

    def __init__(
        self, which: int, message: str, place: int | None = None, cause: Cause = Cause.SYNTAX
    ) -> None:
        super().__init__(which, message, place)
        self.cause = cause


class Bars(Stopped):
    """The query does more than to read the rows."""


class TooMuch(Stopped):
    """The query passed a limit, which the message names: time, memory, rows or size of a value."""


class Engine(Protocol):
    """Both queries over one pool of rows, of which it holds a part."""

    label: str  # as `sqlite 3.40.1`; what was rewritten is told behind it
    queries: tuple[str, str]  # as the engine is asked
    pace: float  # of the parts that SQLite tries, how many this one does

    @staticmethod
    def clock() -> float:
        """The seconds by which the time of a search is told."""

    @property
    def tables(self) -> frozenset[int]:
        """The numbers of the tables that the queries read."""

    def answers(self, part: Mask, backwards: bool = False) -> tuple[Answer, Answer]:
        """What both queries answer on a part, whose rows are stored in their order or the other way
        round."""

    def columns(self, which: int) -> tuple[str, ...]:
        """The names of the columns that one of the queries returns."""

    def ties(self, which: int) -> int:
        """How many ways of breaking ties one of the queries has; 0 where no order in it chooses
        rows, or where the ways aren't known."""

    def tied_answer(self, which: int, way: int, part: Mask) -> Answer | None:
        """What it answers where ties are broken in one of the ways; None where that failed."""

    def ranked_answer(self, which: int, part: Mask) -> Answer | None:
        """What it answers with one more column, the rank of each row by the keys of its ORDER BY;
        None where it has none, or the keys can't be asked."""

    def joined(
        self, tables: Sequence[tuple[int, str]], condition: str
    ) -> Iterator[tuple[int, ...]]:
        """The places of the rows of each tuple of some tables, given by their numbers and the names
        that they have in the condition, which holds for it, over all rows."""

    def close(self) -> None:
        ...
