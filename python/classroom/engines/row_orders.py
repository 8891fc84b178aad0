"""Whether the rows of an answer come in the reference's order, by the keys of both."""
from __future__ import annotations

from classroom.engines import join_tuples as joins
from classroom.engines.engine import ANSWER, REFERENCE, Engine
from classroom.exercise.part_masks import Mask
from classroom.verdict.compare import ORDER, Answer, difference
from classroom.verdict.orders import Runs, is_bound, is_in_order, runs


class RowOrders:
    """The orders of a reference and an answer over an engine."""

    def __init__(self, engine: Engine, queries: tuple[str, str], dialect: str) -> None:
        self.engine = engine
        self.is_ordered = [joins.is_ordered(text, dialect) for text in queries]
        self.part: Mask | None = None  # of which the ranks are known
        self.ranked: dict[int, Answer | None] = {}

    def difference(self, part: Mask, both: tuple[Answer, Answer]) -> str:
        """How two answers on a part differ, as `compare.difference` tells it. An answer without an
        ORDER BY of its own has no order, and a finer order than the reference's is in order."""
        found = difference(*both, self.is_ordered[REFERENCE])
        if not self.is_ordered[REFERENCE] or found not in ("", ORDER) or both[REFERENCE].failure:
            return found
        if len(both[ANSWER].lines) < 2:
            return found
        wanted = self.runs(part, REFERENCE, both[REFERENCE])
        if wanted is None:
            return found
        lines = both[ANSWER].lines
        if found and not is_in_order(wanted, lines):
            return ORDER
        own = [len(lines)]
        if self.is_ordered[ANSWER]:
            known = self.runs(part, ANSWER, both[ANSWER])
            own = [len(run) for run in known] if known is not None else [1] * len(lines)
        return "" if is_bound(wanted, lines, own) else ORDER

    def runs(self, part: Mask, which: int, answer: Answer) -> Runs | None:
        """Of one query; None where its keys aren't known."""
        if part != self.part:
            self.part, self.ranked = part, {}
        if which not in self.ranked:
            self.ranked[which] = self.engine.ranked_answer(which, part)
        ranked = self.ranked[which]
        return runs(answer.lines, ranked.lines) if ranked else None
