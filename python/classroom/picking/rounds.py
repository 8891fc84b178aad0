"""Asks over parts of the rows until a whole pass tells no query that was not told before."""
from __future__ import annotations

from collections.abc import Callable, Sequence
from dataclasses import dataclass, field

from classroom.mutants.question import Question
from classroom.exercise import parts
from classroom.picking.finding import Asker, Kind, Rows

FEWEST_ROWS = 15  # no part gets smaller than this
MOST_PARTS = 8  # in a pass


@dataclass
class Found:
    """What the passes found."""

    told: dict[Question, Rows] = field(default_factory=dict)  # with a witness of the least size
    refused: set[Question] = field(default_factory=set)
    most: dict[Question, int] = field(default_factory=dict)  # rows over which a query can be asked
    agreed: set[Question] = field(default_factory=set)  # on a part


def search(
    asking: Asker, asked: Sequence[Question], seed: str, tell: Callable[[str], None]
) -> Found:
    """Tells as many queries as it can, each with the rows of a witness."""
    found = Found(most={of: min(parts.MOST_ROWS, len(asking.pool.lawful)) for of in asked})
    step(asking, found, asked, "", tell)
    number = 0
    while True:
        number += 1
        before = len(found.told)
        for part in range(1, MOST_PARTS + 1):
            left = [
                of
                for of in asked
                if of not in found.told
                and of not in found.refused
                and (part - 1) * found.most[of] < len(asking.pool.lawful) > found.most[of]
            ]
            if left:
                step(asking, found, left, f"{seed} {number} {part}", tell)
        if len(found.told) == before:
            return found


def step(
    asking: Asker, found: Found, asked: Sequence[Question], seed: str, tell: Callable[[str], None]
) -> None:
    """Asks over one part; what passes a limit over smaller and smaller ones."""
    waiting = list(asked)
    size = max(found.most[of] for of in waiting)
    while waiting and size >= min(FEWEST_ROWS, len(asking.pool.lawful)):
        at_once = [of for of in waiting if found.most[of] >= size]
        if at_once:
            rows = parts.chosen(asking.pool, size, seed) if seed else parts.first(asking.pool, size)
            tell(f"{len(at_once)} queries over {len(rows)} rows")
            for of, outcome in asking.over(rows, at_once).items():
                if outcome.is_shown:
                    found.told[of] = outcome.rows
                elif outcome.kind == Kind.REFUSED:
                    found.refused.add(of)
                elif outcome.kind == Kind.SAME:
                    found.agreed.add(of)
                else:
                    found.most[of] = size // 2
                    continue
                waiting.remove(of)
        size = max((found.most[of] for of in waiting), default=0)
