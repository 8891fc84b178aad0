"""What a search for a counterexample wants, and what it has seen so far."""
from __future__ import annotations

from dataclasses import dataclass, field

from classroom.exercise.part_masks import Mask
from classroom.verdict.compare import COLUMNS, DUPLICATES, FAILURE, ORDER, ROWS

SHRINKINGS = 20
RANDOM_PARTS = 1000


@dataclass(frozen=True)
class Wanted:
    """What counts as a difference, and how long is tried."""

    seconds: float = 10.0
    counts_duplicates: bool = False
    counts_order: bool = False
    random_parts: int = RANDOM_PARTS
    shrinkings: int = SHRINKINGS
    agrees: bool = False  # the queries are known to agree as sets
    looks: int = 0  # that stand for the seconds; 0: the engine's clock counts

    def kinds(self) -> frozenset[str]:
        return frozenset(
            (set() if self.agrees else {COLUMNS, FAILURE, ROWS})
            | ({DUPLICATES} if self.counts_duplicates else set())
            | ({ORDER} if self.counts_order else set())
        )


@dataclass
class Looks:
    """What was seen of the parts so far."""

    known: dict[Mask, str] = field(default_factory=dict)
    tried: int = 0
    undetermined: list[bool] = field(default_factory=lambda: [False, False])
    tied: list[int] = field(default_factory=lambda: [0, 0])  # parts asked for ties alone
    # The smallest part on which the reference isn't determined, and on which it fails.
    tie: Mask | None = None
    failing: Mask | None = None
    # A first part for each kind that counts for nothing.
    slight: dict[str, Mask] = field(default_factory=dict)

    def see_tie(self, part: Mask) -> None:
        self.tie = smaller(self.tie, part)

    def see_failure(self, part: Mask) -> None:
        self.failing = smaller(self.failing, part)


def smaller(one: Mask | None, other: Mask) -> Mask:
    return other if one is None or other.bit_count() < one.bit_count() else one
