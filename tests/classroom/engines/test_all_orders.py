"""What is tried of random pairs that ties leave open, against all parts and all orders of the rows
(`compare_ties`)."""
from __future__ import annotations

import os
import sys
from collections import Counter
from pathlib import Path

import pytest
from roles import Roles

sys.path.append(str(Path(__file__).resolve().parents[2]))

from compare import by_ties  # noqa: E402

from classroom.engines import counterexample  # noqa: E402

COUNT = int(os.environ.get("RATEST_TIES", "200"))
OF_TWO_ORDERS = 776  # the seed of a pair with a window and a LIMIT over the same ties
JOBS = os.cpu_count() or 1


def check(outcomes: Counter[str], count: int) -> None:
    assert outcomes["differs"] == 0
    # Most pairs are really compared, and many have a witness.
    assert outcomes["same"] >= count // 4, outcomes
    assert outcomes["same, with a witness"] >= count // 4, outcomes


def test_sqlite() -> None:
    check(by_ties.run(0, COUNT, JOBS), COUNT)


def test_postgresql(roles: Roles) -> None:
    made = by_ties.Roles(roles.loader, roles.asker)
    check(by_ties.run(0, COUNT // 2, JOBS, made), COUNT // 2)


def test_each_order_breaks_ties_by_itself(roles: Roles) -> None:
    # The running sum of the tied row that LIMIT takes is that of its place in another order.
    made = by_ties.Roles(roles.loader, roles.asker)
    assert by_ties.compared(OF_TWO_ORDERS, None)[1:] == ("same, with a witness", "")
    assert by_ties.compared(OF_TWO_ORDERS, made)[1:] == ("same, with a witness", "")


def test_a_trial_that_misses_ties_is_told(monkeypatch: pytest.MonkeyPatch) -> None:
    monkeypatch.setattr(counterexample, "difference", lambda *of: "")
    assert by_ties.run(0, COUNT // 2, JOBS)["differs"] > 0
