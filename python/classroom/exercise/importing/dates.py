"""Dates and times as texts of ISO 8601, which compare by their bytes as the moments do."""
from __future__ import annotations

import re
from collections.abc import Iterable
from datetime import date, time

DATE = r"[0-9]{4}-[0-9]{2}-[0-9]{2}"
TIME = r"[0-9]{2}:[0-9]{2}"
MOMENT = re.compile(
    rf"(?:(?P<date>{DATE})(?:(?P<between>[ T])(?={TIME}))?)?"
    rf"(?:(?P<time>{TIME})(?P<seconds>:[0-9]{{2}}(?:\.(?P<fraction>[0-9]{{1,9}}))?)?"
    r"(?P<zone>Z|[+]00(?::?00)?)?)?"
)


def form_of(text: str) -> str | None:
    """The form of a text, as `date time seconds .3 Z`; None where it is no moment, or none that is
    read."""
    found = MOMENT.fullmatch(text) if text else None
    if not found or (found["date"] and found["time"] and not found["between"]):
        return None
    try:
        if found["date"]:
            date.fromisoformat(found["date"])
        if found["time"]:
            time.fromisoformat(found["time"] + (found["seconds"] or "")[:3])
    except ValueError:
        return None
    return "|".join(
        part if part is not None else ""
        for part in (
            found["date"] and "date",
            found["between"],
            found["time"] and "time",
            found["seconds"] and "seconds",
            found["fraction"] and str(len(found["fraction"])),
            found["zone"],
        )
    )


def one_form(texts: Iterable[str]) -> bool:
    """Whether texts are moments of one form, so that they are in the order of their bytes."""
    form = None
    for text in texts:
        own = form_of(text)
        if own is None or form not in (None, own):
            return False
        form = own
    return True


def padded(text: str, digits: int) -> str | None:
    """A moment as PostgreSQL prints it, with so many digits of a fraction behind its seconds; None
    where it is none or has more of them. A date has no seconds."""
    found = MOMENT.fullmatch(text)
    if form_of(text) is None or not found:
        return None
    if not found["seconds"]:
        return text
    fraction = (found["fraction"] or "").ljust(digits, "0")
    if len(fraction) > digits:
        return None
    start = text[: found.end("seconds")].partition(".")[0]
    return start + (f".{fraction}" if digits else "") + (found["zone"] or "")
