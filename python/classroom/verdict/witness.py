"""What one call of `ratest` came to: what it printed, as the package `ratest` reads it, or no
verdict."""
from __future__ import annotations

from collections.abc import Sequence
from dataclasses import dataclass
from typing import Union

from classroom.process.limits import Ran
from ratest import printed
from ratest.printed import Agree, Kept, Limit, Refused, Row, Undecided, Value, Witness
from ratest.schema import Table

__all__ = [
    "Agree",
    "Died",
    "Kept",
    "Limit",
    "NoVerdict",
    "Outcome",
    "Refused",
    "Row",
    "Undecided",
    "Value",
    "Witness",
    "read",
]


@dataclass(frozen=True)
class NoVerdict:
    """A run that passed a limit."""

    passed: str  # time, memory or output


@dataclass(frozen=True)
class Died:
    """A run without an answer that can be read."""

    status: int  # the exit status, or minus the signal that ended it
    printed: str

    @property
    def how(self) -> str:
        """As `ratest was ended by signal 11`."""
        if self.status < 0:
            return f"ratest was ended by signal {-self.status}"
        return f"ratest ended with status {self.status}, and its answer can't be read"


Outcome = Union[Agree, Witness, Undecided, Refused, Limit, NoVerdict, Died]


def read(ran: Ran, tables: Sequence[Table]) -> Outcome:
    """The outcome of one call of `ratest` over these tables."""
    if ran.passed:
        return NoVerdict(ran.passed)
    out, err = (text.decode("utf-8", "replace") for text in (ran.stdout, ran.stderr))
    try:
        outcome = printed.outcome_of(ran.status, out, err, tables)
    except printed.Unreadable:
        return Died(ran.status, out + err)
    return Died(ran.status, out + err) if isinstance(outcome, printed.Never) else outcome


def tells_columns(outcome: Outcome) -> bool:
    """Whether it says that the two answers have other columns."""
    return (
        isinstance(outcome, Refused)
        and outcome.part == "queries"
        and outcome.fault == "numbers of columns differ"
    )
