"""Two changes of an answer with which it agrees, where one is not enough.

The first changes are those with which the answer is right on the most parts of the rows; to each
the second ones are tried as single changes are. """
from __future__ import annotations

import time

from classroom.base.errors import Fault
from classroom.edits.edits import Edit, edits
from classroom.edits.query import Query
from classroom.exercise.rows import Cells
from classroom.engines.sample import Answer
from classroom.hints.repairs import Search
from classroom.sql.dialect import for_sqlite

FIRST = 40  # first changes that are followed
MOST_SECOND = 4  # the cost of a second one
STEPS = 100_000  # of SQLite's machine for the second changes to one first, in hundreds of two


def pair(search: Search, answer: str, seconds: float) -> tuple[Edit, ...]:
    """Two changes, of which the second is one of the text that the first makes; none where none
    were found within the time."""
    end = time.monotonic() + seconds
    found: list[tuple[Edit, Edit]] = []
    seen: set[str] = set()
    for first in best(search, answer, time.monotonic() + seconds / 3):
        try:
            query = Query(first.text, search.words.of(first.text))
        except Fault:
            continue
        if time.monotonic() > end:
            break
        more = [
            second
            for second in edits(query)
            if second.cost <= MOST_SECOND and second.text not in seen
        ]
        seen |= {second.text for second in more}
        for at in search.ground.base.passing(
            [second.text for second in more], search.wanted, STEPS
        ):
            found.append((first, more[at]))
    found.sort(key=lambda two: two[0].cost + two[1].cost)
    agree = search.ground.prover.agree(search.reference, [second.text for _, second in found])
    for two, agrees in zip(found, agree):
        if (
            agrees
            and search.guarded(
                Query(two[0].text, search.words.of(two[0].text)), [two[1]], search.reference
            ).edits
        ):
            return two
    return ()


def best(search: Search, answer: str, end: float) -> list[Edit]:
    """The changes with which the answer comes nearest to the reference's, by the parts of the
    rows."""
    query = Query.of(answer, search.words.of(answer))
    made = edits(query)
    texts = [for_sqlite(edit.text) for edit in made]
    scores: list[float | None] = [0.0] * len(made)
    for part, want in enumerate(search.wanted):
        if want is None or time.monotonic() > end:
            continue
        for at, text in enumerate(texts):
            score = scores[at]
            if score is not None:
                near = nearness(search.ground.base.answer(part, text), want)
                scores[at] = None if near is None else score + near
    ranked = [
        (-score, edit.cost, at)
        for at, (edit, score) in enumerate(zip(made, scores))
        if score is not None
    ]
    return [made[at] for _, _, at in sorted(ranked)[:FIRST]]


def nearness(got: Answer, want: tuple[int, frozenset[Cells]]) -> float | None:
    """From 0 to 1 what two answers share; None where the one is refused or has other columns."""
    if got is None or got[0] != want[0]:
        return None
    return 1.0 if got == want else len(got[1] & want[1]) / max(1, len(got[1] | want[1])) / 2
