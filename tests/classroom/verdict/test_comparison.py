"""How two answers differ, by hand."""
from __future__ import annotations

from decimal import Decimal

import pytest

from classroom.verdict.compare import (
    COLUMNS,
    DUPLICATES,
    FAILURE,
    ORDER,
    ROWS,
    Answer,
    Line,
    difference,
)

ONE: list[Line] = [(1, "a"), (2, "b")]


@pytest.mark.parametrize(
    "reference, answer, is_ordered, kind",
    [
        (ONE, ONE, True, ""),
        (ONE, ONE[::-1], False, ""),
        (ONE, ONE[::-1], True, ORDER),
        (ONE, ONE + ONE[:1], False, DUPLICATES),
        (ONE, ONE[:1], False, ROWS),
        (ONE, [(1, "a"), (2, "B")], False, ROWS),
        ([(1,)], [("1",)], False, ROWS),
        ([(1,)], [(1.0,)], False, ""),
        ([(None,)], [(0,)], False, ROWS),
        ([(0.1 + 0.2,)], [(0.3,)], False, ""),
        ([(1 / 3,)], [(Decimal("0.3333333333333333"),)], False, ""),
        ([(1 / 3,)], [(0.33333333,)], False, ROWS),
        ([(1.0000001,)], [(1,)], False, ROWS),
        ([(1.00000000001,)], [(1,)], False, ROWS),
        ([(1.0000000000001,)], [(1,)], False, ""),
        # Five minutes of a Julian day; an average and the next whole number.
        ([(2460310.916666667,)], [(2460310.920138889,)], False, ROWS),
        ([(4006381333939.5,)], [(4006381333931.0,)], False, ROWS),
        # Whole numbers exactly, also where a float has an error behind them.
        ([(Decimal("8012762667879"),)], [(Decimal("8012762667880"),)], False, ROWS),
        ([(4006381333938.9995,)], [(4006381333939,)], False, ""),
        ([(float(2**53 - 1),)], [(2**53 - 1,)], False, ""),
        ([(1e300,)], [(1e300 * (1 + 1e-15),)], False, ""),
        # Of two roundings on both sides of a half.
        ([(1000000000.125,)], [(1000000000.1250001,)], False, ""),
        # Decimals exactly, but for quotients, and beside floats by twelve digits.
        ([(Decimal("12345678901.21"),)], [(Decimal("12345678901.22"),)], False, ROWS),
        ([(Decimal("12345678901.21"),)], [(12345678901.21,)], False, ""),
        ([(Decimal("0.66666666666666666667"),)], [(Decimal("0.6666666666666667"),)], False, ""),
        ([(Decimal("0.99999999999999999999"),)], [(1,)], False, ""),
        ([(Decimal("1E+5000"),)], [(Decimal("1E+5000"),)], False, ""),
        ([(Decimal("Infinity"),)], [(float("inf"),)], False, ""),
        ([(10**15,)], [(10**15 + 1,)], False, ROWS),
        ([(float("nan"),)], [(Decimal("NaN"),)], False, ""),
        ([(Decimal("1.50"),)], [(1.5,)], False, ""),
        ([(b"a",)], [("a",)], False, ROWS),
        ([([1, 2],)], [([1, 2],)], False, ""),
        ([([1, 2],)], [([2, 1],)], False, ROWS),
        ([], [], True, ""),
    ],
)
def test_difference(reference: list[Line], answer: list[Line], is_ordered: bool, kind: str) -> None:
    assert difference(Answer(1, reference), Answer(1, answer), is_ordered) == kind


def test_other_columns_and_failures() -> None:
    assert difference(Answer(1, []), Answer(2, []), False) == COLUMNS
    assert difference(Answer(2, ONE), Answer(0, (), "division by zero"), False) == FAILURE
    assert (
        difference(Answer(0, (), "division by zero"), Answer(0, (), "division by zero"), False)
        == ""
    )
