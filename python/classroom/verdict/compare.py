"""How the answers to two queries differ."""
from __future__ import annotations

import math
from collections import Counter
from collections.abc import Sequence
from dataclasses import dataclass
from decimal import Decimal
from typing import Any

Line = tuple[Any, ...]

# From the worst to the slightest.
COLUMNS, FAILURE, ROWS, DUPLICATES, ORDER = KINDS = (
    "columns",
    "failure",
    "rows",
    "duplicates",
    "order",
)
# An order in which rows came, and which nothing asks for.
LEFT_OPEN = "order left open"
# Of a number with a fraction. A sum in another order, or a quotient, has other digits behind them.
DIGITS = 12
# The digits of a float that an error of its last bits leaves as they are.
SURE_DIGITS = 15
# Up to here each whole number is a float.
MOST_WHOLE = 1 << 53


@dataclass(frozen=True)
class Answer:
    """What a database answers to a query: rows in its order, or why it can't."""

    columns: int
    lines: Sequence[Line]
    failure: str = ""  # as a division by zero; then there are no rows


def difference(reference: Answer, answer: Answer, is_ordered: bool) -> str:
    """The kind in which two answers differ, "" where they don't: other columns, one that fails,
    other rows, the same rows another number of times, and where the order counts, the same rows in
    another one.

    Whole numbers are equal where they are the same, others where they are after rounding to twelve
    digits, and decimals of up to fifteen digits exactly where the column has no float.
    """
    if reference.columns != answer.columns and not (reference.failure or answer.failure):
        return COLUMNS
    if bool(reference.failure) != bool(answer.failure):
        return FAILURE
    if reference.lines == answer.lines:
        return ""
    one, two = reference.lines, answer.lines
    try:
        bags: tuple[dict[Line, int], dict[Line, int]] = (Counter(one), Counter(two))
        is_same = dict.__eq__(*bags)
    except TypeError:  # lists, that have no hash
        is_same = False
    if not is_same:
        floats = with_floats(one, two)
        one, two = rounded(one, floats), rounded(two, floats)
        if one == two:
            return ""
        bags = Counter(one), Counter(two)
        is_same = dict.__eq__(*bags)
    if is_same:
        return ORDER if is_ordered else ""
    return ROWS if bags[0].keys() != bags[1].keys() else DUPLICATES


def with_floats(*answers: Sequence[Line]) -> frozenset[int]:
    """The places of the columns in which an answer has a float."""
    return frozenset(
        place
        for lines in answers
        for line in lines
        if not PLAIN.issuperset(map(type, line))
        for place, value in enumerate(line)
        if isinstance(value, float)
    )


def rounded(lines: Sequence[Line], floats: frozenset[int] = frozenset()) -> list[Line]:
    """Rows that are equal where they count as the same; decimals in the columns with floats, by
    their places, are compared as floats are."""
    return [
        line
        if PLAIN.issuperset(map(type, line))
        else tuple(plain(value, place in floats) for place, value in enumerate(line))
        for line in lines
    ]


PLAIN = frozenset({int, str, type(None), bytes})


def plain(value: Any, as_float: bool = False) -> Any:
    """A value that equals what counts as the same."""
    if isinstance(value, (float, Decimal)):
        if math.isnan(value):
            return "NaN"
        if math.isinf(value):
            return float(value)
        return of_decimal(value, as_float) if isinstance(value, Decimal) else of_float(value)
    if isinstance(value, (list, dict)):
        return repr(value)
    return value


def of_float(value: float) -> float:
    if value.is_integer() and abs(value) <= MOST_WHOLE:
        return value
    sure = float(f"{value:.{SURE_DIGITS}g}")
    return sure if sure.is_integer() and abs(sure) <= MOST_WHOLE else float(f"{sure:.{DIGITS}g}")


def of_decimal(value: Decimal, as_float: bool) -> int | float | Decimal:
    if as_float:
        return of_float(float(value))
    short = value.normalize()  # of at most 28 digits
    if value == value.to_integral_value():
        return int(value) if value.adjusted() < SURE_DIGITS else value
    # A quotient has more digits than that.
    if len(short.as_tuple().digits) <= SURE_DIGITS:
        return short
    return Decimal(f"{short:.{DIGITS}g}")
