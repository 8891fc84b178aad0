"""In which orders the rows of an answer may come by its ORDER BY, and whether another one keeps to
them."""
from __future__ import annotations

import itertools
from collections import Counter
from collections.abc import Sequence

from classroom.verdict.compare import Line, rounded, with_floats

# The rows of each rank by the keys of an ORDER BY, from the first on; those of one rank may come in
# any order.
Runs = list[list[Line]]


def runs(lines: Sequence[Line], ranked: Sequence[Line]) -> Runs | None:
    """Those of an answer that came as `lines`, by the same rows with their ranks as one more
    column; None where the two are not the same answer, or it isn't in that order itself."""
    by_rank: dict[int, list[Line]] = {}
    for *cells, rank in ranked:
        by_rank.setdefault(rank, []).append(tuple(cells))
    made = [by_rank[rank] for rank in sorted(by_rank)]
    return made if is_in_order(made, lines) else None


def is_in_order(wanted: Runs, lines: Sequence[Line]) -> bool:
    """Whether rows come in an order that these runs leave open."""
    floats = with_floats(lines, *wanted)
    left = rounded(lines, floats)
    for run in wanted:
        if Counter(left[: len(run)]) != Counter(rounded(run, floats)):
            return False
        left = left[len(run) :]
    return not left


def is_bound(wanted: Runs, lines: Sequence[Line], own: Sequence[int]) -> bool:
    """Whether rows that come in an order of the runs do so whatever order their own ORDER BY leaves
    open, which has so many rows of each rank: else two rows that differ may change places between
    two of the runs."""
    ends = set(itertools.accumulate(map(len, wanted)))
    known, begin = rounded(lines), 0
    for size in own:
        end = begin + size
        if len(set(known[begin:end])) > 1 and any(at in ends for at in range(begin + 1, end)):
            return False
        begin = end
    return True
