"""Drops rows as long as each query is told with a witness as small."""
from __future__ import annotations

from collections.abc import Callable, Mapping, Sequence

from classroom.mutants.question import Question
from classroom.picking.finding import Asker, Rows
from classroom.exercise.rows import Row

# Queries that are asked at once whether rows can go, since mostly one of the first says no.
AT_ONCE = 4


def within(told: Mapping[Question, Rows], most: int) -> dict[Question, Rows]:
    """Witnesses whose union has at most so many rows, in each step one of those that add the
    fewest."""
    union: set[Row] = set()
    chosen: dict[Question, Rows] = {}
    left = dict(told)
    while left:
        of = min(left, key=lambda one: len(left[one] - union))
        if len(union | left[of]) > most:
            break
        union |= left[of]
        chosen[of] = left.pop(of)
    return chosen


def needed(asking: Asker, told: Mapping[Question, Rows], tell: Callable[[str], None]) -> Rows:
    """Rows of the union of which none can go, so that each query is told with a witness of the
    least size."""
    rows = frozenset(row for kept in told.values() for row in kept)
    search = Search(asking)
    search.learn(rows, list(told), told)
    waiting = set(rows)
    while waiting:
        row = search.least_used(waiting)
        waiting.discard(row)
        smaller = rows - asking.pool.with_sources([row])
        if search.tells(smaller):
            rows = smaller
            waiting &= rows
            tell(f"{len(rows)} rows, {len(waiting)} of them to try")
    return rows


class Search:
    """The witnesses that are known of each query."""

    def __init__(self, asking: Asker) -> None:
        self.asking = asking
        self.known: dict[Question, list[Rows]] = {}
        self.now: dict[Question, Rows] = {}

    def learn(self, rows: Rows, asked: Sequence[Question], told: Mapping[Question, Rows]) -> None:
        """Asks over all rows, where witnesses may be smaller than over the parts they come from."""
        for of, outcome in self.asking.over(rows, asked).items():
            best = outcome.rows if outcome.is_shown else told[of]
            self.known[of] = [best] + [kept for kept in [told[of]] if len(kept) == len(best)]
            self.now[of] = best

    def least_used(self, rows: set[Row]) -> Row:
        """The row that the fewest of the witnesses have, the last of several."""
        uses = dict.fromkeys(rows, 0)
        for kept in self.now.values():
            for row in kept & rows:
                uses[row] += 1
        return max(rows, key=lambda row: (-uses[row], row))

    def tells(self, rows: Rows) -> bool:
        """Whether each query is told over these rows with a witness as small; then these are
        taken."""
        taken: dict[Question, Rows] = {}
        unknown = []
        for of, kept in self.now.items():
            if not kept <= rows:
                other = next((one for one in self.known[of] if one <= rows), None)
                if other is None:
                    unknown.append(of)
                else:
                    taken[of] = other
        at = 0
        while at < len(unknown):
            for of, outcome in self.asking.over(rows, unknown[at : at + AT_ONCE]).items():
                if not outcome.is_shown or len(outcome.rows) > len(self.now[of]):
                    return False
                taken[of] = outcome.rows
                self.known[of].append(taken[of])
            at += AT_ONCE
        self.now.update(taken)
        return True
