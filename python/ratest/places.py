"""Where in a query the fault is that `ratest` tells by a byte."""
from __future__ import annotations

import re
from dataclasses import dataclass

WORD = re.compile(r"\w+")


@dataclass(frozen=True)
class Place:
    """A part of a text: a word, a character, or the empty part at the end."""

    line: int  # from 1
    column: int  # from 1, in characters
    before: str
    marked: str
    after: str

    @property
    def span(self) -> tuple[int, int]:
        """Where it begins and ends in the units of UTF-16 that a browser counts in."""
        start = units(self.before)
        return start, start + units(self.marked)


def place_of(text: str, byte: int) -> Place:
    """The place of a byte of a text, counted from 0 in its UTF-8."""
    whole = text.encode("utf-8", "replace")[:byte]
    at = min(len(whole.decode("utf-8", "ignore")), len(text))
    word = WORD.match(text, at)
    stop = word.end() if word else min(at + 1, len(text))
    before = text[:at]
    return Place(
        before.count("\n") + 1,
        at - (before.rfind("\n") + 1) + 1,
        before,
        text[at:stop],
        text[stop:],
    )


def units(text: str) -> int:
    return len(text.encode("utf-16-le", "replace")) // 2
