"""What the rule for late answers takes off a mark."""
from __future__ import annotations

from datetime import datetime, timedelta
from decimal import Decimal

from classroom.exercise.collected import LATE
from classroom.exercise.settings import LateRule
from classroom.marks.mark import IN_TIME, Late

DAY = timedelta(days=1)
WORDS = ("no", "one", "two", "three", "four", "five", "six", "seven", "eight", "nine", "ten")
UNKNOWN = Late(words="late, and it is not known by how much", is_unknown=True)


def late(rule: LateRule | None, handed: str, closes: datetime | None) -> Late:
    """What the rule says of an answer: `handed` is the moment of its hand-in, LATE where a platform
    tells no more, empty where nothing is known; `closes` is the student's own closing time."""
    if rule is None or not handed:
        return IN_TIME
    if handed == LATE:
        return UNKNOWN
    moment = datetime.fromisoformat(handed)
    if closes is None or moment <= closes:
        return IN_TIME
    by = moment - closes
    if rule.until and moment > max(rule.until, closes):
        return Late(Decimal(1), f"late by {duration(by)}, when nothing counted any more")
    if by <= timedelta(minutes=rule.grace):
        return Late(words=f"late by {duration(by)}, which costs nothing")
    days = -(-by // DAY)
    return Late(
        min(Decimal(1), Decimal(str(rule.minus)) * days),
        f"late by {duration(by)}, {counted_days(days)} begun",
    )


def counted_days(days: int) -> str:
    return f"{WORDS[days] if days < len(WORDS) else days} day{'s' * (days != 1)}"


def duration(by: timedelta) -> str:
    """As `1 day 2 hours`: its two largest units, down to minutes."""
    minutes = max(1, by // timedelta(minutes=1))
    parts = [
        f"{count} {unit}{'s' * (count != 1)}"
        for count, unit in (
            (minutes // 1440, "day"),
            (minutes // 60 % 24, "hour"),
            (minutes % 60, "minute"),
        )
        if count
    ]
    return " ".join(parts[:2])
