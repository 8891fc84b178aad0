"""What the page says of itself: what is kept, from the options that it runs with."""
from __future__ import annotations

from dataclasses import dataclass


@dataclass(frozen=True)
class About:
    """The options that the page `about` speaks of."""

    title: str
    keep_days: int | None  # None where questions stay
    has_login: bool
    hourly: int | None  # None where counterexamples are not bounded
    only_verdict: bool
    seconds: float  # of a question
    fault: str = ""  # where the page tells only this
