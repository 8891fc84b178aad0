"""A thousand random cases against each of the programs that others wrote, and one more comparison
whose cases hypothesis draws and makes smaller. `COMPARE_COUNT` is another number of cases."""
from __future__ import annotations

import os
import random
import stat
from pathlib import Path
from typing import Iterator

import pytest
from hypothesis import HealthCheck, given, settings
from hypothesis import strategies as st

from compare import by_postgres, by_tried, by_z3, steps
from compare.by_broken import Broken
from compare.by_plus import AlgebraTexts, Certificates, Grades, Rows
from compare.by_postgres import ByPostgres
from compare.by_sqlite import BySqlite
from compare.by_tried import ByTried
from compare.by_z3 import ByZ3
from compare.change import reduced
from compare.command import Comparison, case_of, fails, run
from compare.draw import Draw
from compare.program import Passed, missing

COUNT = int(os.environ.get("COMPARE_COUNT", "1000"))
JOBS = os.cpu_count() or 1


@pytest.fixture(autouse=True)
def programs() -> None:
    if missing():
        pytest.skip(missing() or "")


def compare(comparison: Comparison, count: int = COUNT) -> None:
    outcomes = run(comparison, 0, count, JOBS)
    assert outcomes["differs"] == 0
    # Most cases are really compared.
    assert outcomes["same"] >= count // 3, outcomes


@pytest.mark.parametrize(
    "comparison",
    [BySqlite(), Grades(), Rows(), AlgebraTexts(), Certificates(), Broken()],
    ids=["sqlite", "grades", "rows", "algebra", "certificates", "broken"],
)
def test_with_sqlite_and_one_another(comparison: Comparison) -> None:
    compare(comparison)


def test_with_what_is_tried() -> None:
    if by_tried.lack():
        pytest.skip(by_tried.lack() or "")
    compare(ByTried())


def test_with_postgres() -> None:
    if by_postgres.lack():
        pytest.skip(by_postgres.lack() or "")
    with by_postgres.server() as address:
        compare(ByPostgres(address))


def test_with_z3() -> None:
    if by_z3.lack():
        pytest.skip(by_z3.lack() or "")
    compare(ByZ3())


@settings(max_examples=100, deadline=None, database=None, suppress_health_check=list(HealthCheck))
@given(st.randoms(use_true_random=False))
def test_with_sqlite_by_hypothesis(source: random.Random) -> None:
    try:
        assert BySqlite().difference(Draw(source).case()) is None
    except Passed:
        pass


@pytest.fixture
def always_agrees(tmp_path: Path, monkeypatch: pytest.MonkeyPatch) -> Iterator[None]:
    """A program that is wrong on every pair of queries that differ."""
    program = tmp_path / "ratest"
    program.write_text("#!/bin/sh\necho agree\n")
    program.chmod(program.stat().st_mode | stat.S_IXUSR)
    monkeypatch.setenv("RATEST", str(program))
    yield


def test_a_wrong_program_is_told_with_a_small_case(always_agrees: None) -> None:
    comparison = BySqlite()
    seed = next(
        seed
        for seed in range(100)
        if fails(comparison.difference, case_of(seed, comparison.limits))
    )
    smallest = reduced(
        case_of(seed, comparison.limits), lambda case: fails(comparison.difference, case)
    )
    assert "witness: 1" in (comparison.difference(smallest) or "")
    assert sum(map(len, smallest.rows.values())) == 1


def test_a_wrong_step_is_told() -> None:
    # x0 or x1, not x0 or x1; x1 follows from both, and x0 from neither.
    lines = steps.read_encoding("+0 +1 \n-0 +1 \nassume -1 \n")
    assert steps.fault("added 2\nd +1 ; 0 1\nend\n", lines) is None
    assert steps.fault("added 2\nd +0 ; 0 1\nend\n", lines) == "step 1 does not follow"
    assert steps.fault("added 2\nd +1 ; 0\nend\n", lines) == "step 1 does not follow"
    assert steps.fault("added 2\nend\n", lines) == "no line refutes what is assumed"
    assert steps.fault("added 3\nend\n", lines) == "2 lines, and the certificate says 3"
