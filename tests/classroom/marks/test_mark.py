"""What an answer is worth: which line decides, the rule for late answers, and the bounds."""
from __future__ import annotations

from decimal import Decimal

import pytest

from classroom.marks.mark import (
    IN_TIME,
    MARKED,
    About,
    Given,
    Late,
    Mark,
    Rule,
    exact,
    mark,
    number,
    shown,
    total,
)

TWO = Decimal(2)
STUDENT, TEXT, MISTAKE, OUTCOME = (
    Given(about, Decimal(points), f"by {about.name}")
    for about, points in zip(About, ("0.5", "0.75", "1", "1.25"))
)


@pytest.mark.parametrize(
    ("lines", "points"),
    [
        ([OUTCOME, MISTAKE, TEXT, STUDENT], "0.5"),
        ([OUTCOME, MISTAKE, TEXT], "0.75"),
        ([OUTCOME, MISTAKE], "1"),
        ([OUTCOME], "1.25"),
        ([], "2"),
    ],
)
def test_the_first_that_applies_decides(lines: list[Given], points: str) -> None:
    made = mark(TWO, Decimal(1), "proved", lines)
    assert made.points == Decimal(points)
    assert made.by == (MARKED if lines else "proved")
    assert made.comment == (lines[-1].comment if lines else "")
    assert made.is_right == (not lines)


def test_an_answer_without_a_score_is_open_until_a_person_marks_it() -> None:
    assert mark(TWO, None, "") == Mark(None, TWO)
    assert mark(TWO, None, "").is_open
    marked = mark(TWO, None, "", [STUDENT])
    assert (marked.points, marked.is_open, marked.by) == (Decimal("0.5"), False, MARKED)


LATE = Late(Decimal("0.2"), "late by 1 day 2 hours, two days begun")


@pytest.mark.parametrize(
    ("share", "lines", "points", "deduction"),
    [
        (Decimal(1), [], "1.6", "0.4"),
        # What has nothing loses nothing.
        (Decimal(0), [], "0", "0"),
        # A person's points are final.
        (Decimal(1), [STUDENT], "0.5", "0"),
        (None, [Given(About.TEXT, TWO, rule=Rule.LATE)], "1.6", "0.4"),
        (Decimal(1), [Given(About.TEXT, Decimal("0.3"), rule=Rule.LATE)], "0", "0.3"),
    ],
)
def test_the_rule_for_late_answers(
    share: Decimal | None, lines: list[Given], points: str, deduction: str
) -> None:
    made = mark(TWO, share, "proved", lines, LATE)
    assert (made.points, made.deduction) == (Decimal(points), Decimal(deduction))
    told = f"{LATE.words}: −{deduction} of 2" if Decimal(deduction) else LATE.words
    assert made.late == told


def test_who_is_late_by_nobody_knows_how_much_is_open() -> None:
    unknown = Late(words="late, and not known by how much", is_unknown=True)
    assert mark(TWO, Decimal(1), "proved", late=unknown).is_open
    assert mark(
        TWO, Decimal(1), "proved", [Given(About.TEXT, TWO, rule=Rule.LATE)], unknown
    ).is_open
    assert mark(TWO, Decimal(1), "proved", [STUDENT], unknown).points == Decimal("0.5")


@pytest.mark.parametrize(
    ("points", "rule", "made"),
    [
        ("3", Rule.FINAL, "2"),
        ("-1", Rule.FINAL, "0"),
        ("3", Rule.BONUS, "3"),
        ("-1", Rule.BONUS, "-1"),
    ],
)
def test_only_a_bonus_passes_the_bounds(points: str, rule: Rule, made: str) -> None:
    """A task may have fewer points since the line was written."""
    found = mark(TWO, None, "", [Given(About.STUDENT, Decimal(points), rule=rule)], IN_TIME)
    assert found.points == Decimal(made)


def test_points_are_exact_and_shown_with_two_digits() -> None:
    thirds = [mark(TWO, None, "", [Given(About.TEXT, Decimal("0.1"))])] * 3
    assert total([*thirds, None, mark(TWO, None, "")]) == Decimal("0.3")
    assert [shown(exact(one)) for one in (2, 2.50, 0.1, 0.005, 1 / 3, 0, 120.0)] == [
        "2",
        "2.5",
        "0.1",
        "0.01",
        "0.33",
        "0",
        "120",
    ]
    assert shown(Decimal("-0.001")) == "0" and shown(Decimal("-0.5")) == "-0.5"
    assert repr(number(Decimal("2.00"))) == "2" and number(Decimal("0.125")) == 0.13
