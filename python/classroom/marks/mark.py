"""What an answer is worth: the one place where points are computed and compared.

Points are exact decimals; what is shown or written has two digits at most. """
from __future__ import annotations

from collections.abc import Iterable
from dataclasses import dataclass
from decimal import ROUND_HALF_UP, Decimal
from enum import IntEnum, StrEnum

ZERO = Decimal(0)
DIGITS = Decimal("0.01")
# Who decided, where a line of class/marks.csv did.
MARKED = "marks.csv"


class About(IntEnum):
    """What a line of class/marks.csv is about; the first that applies to an answer decides."""

    STUDENT = 1
    TEXT = 2
    MISTAKE = 3
    OUTCOME = 4


class Rule(StrEnum):
    """What else holds for points that a person gave."""

    FINAL = ""
    LATE = "late"  # the rule for late answers applies to them too
    BONUS = "bonus"  # they may be above the task's points, or below 0


@dataclass(frozen=True)
class Given:
    """Points that a person gave."""

    about: About
    points: Decimal
    comment: str = ""
    rule: Rule = Rule.FINAL


@dataclass(frozen=True)
class Late:
    """What the rule for late answers comes to."""

    share: Decimal = ZERO  # of the task's points that it takes
    words: str = ""  # as `late by 1 day 2 hours, two days begun`; empty in time
    is_unknown: bool = False  # known to be late, and not by how much


IN_TIME = Late()


@dataclass(frozen=True)
class Mark:
    """The mark of one answer."""

    points: Decimal | None  # None where a person is to give them
    most: Decimal  # of the task
    by: str = ""  # an engine or a prover, or MARKED; empty where it is open
    deduction: Decimal = ZERO  # that was taken off for lateness
    comment: str = ""  # to the student
    late: str = ""  # how late it is, with the deduction
    is_right: bool = False  # by the verdict, else by having all points

    @property
    def is_open(self) -> bool:
        return self.points is None

    @property
    def has_all(self) -> bool:
        return self.points is not None and self.points >= self.most


def mark(
    most: Decimal,
    share: Decimal | None,
    by: str,
    given: Iterable[Given] = (),
    late: Late = IN_TIME,
) -> Mark:
    """The mark of an answer: `share` of the task's points by the verdict of `by`, None where it has
    no score; `given` are the lines that apply to it."""
    line = min(given, key=lambda one: one.about, default=None)
    if line is None and share is None:
        return Mark(None, most, late=late.words)
    points = line.points if line else (share or ZERO) * most
    comment = line.comment if line else ""
    if line and line.rule != Rule.LATE:
        late = Late(words=late.words)
    if late.is_unknown:
        return Mark(None, most, comment=comment, late=late.words)
    deduction = max(ZERO, min(points, late.share * most))
    points -= deduction
    if not line or line.rule != Rule.BONUS:
        points = max(ZERO, min(points, most))
    told = f"{late.words}: −{shown(deduction)} of {shown(most)}" if deduction else late.words
    is_right = points >= most if line else bool(share)
    return Mark(points, most, MARKED if line else by, deduction, comment, told, is_right)


def total(marks: Iterable[Mark | None]) -> Decimal:
    """Of the marks that are not open."""
    return sum((one.points for one in marks if one and one.points is not None), ZERO)


def exact(points: float) -> Decimal:
    """The decimal that a file of settings had."""
    return Decimal(str(points))


def shown(points: Decimal) -> str:
    """With two digits after the point at most: 2, 0.5, 0.33."""
    made = f"{points.quantize(DIGITS, ROUND_HALF_UP):f}".rstrip("0").rstrip(".")
    return "0" if made in ("-0", "") else made


def number(points: Decimal) -> int | float:
    """For JSON, as it is shown."""
    made = shown(points)
    return float(made) if "." in made else int(made)
