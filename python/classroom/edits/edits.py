"""All changes of one place of a query, the cheapest first, each text once."""
from __future__ import annotations

import re
from collections.abc import Sequence
from dataclasses import dataclass

from classroom.edits.change import Change, Kind
from classroom.edits.clauses import Clause, Clauses
from classroom.edits.families import REPAIRS, Family
from classroom.edits.query import Query
from classroom.sql.spans import Span
from classroom.sql.tokens import canonical, tokens

MOST = 2000
SIDE = r"((?:[^\W\d]\w*|\"[^\"]+\")(?: \. (?:[^\W\d]\w*|\"[^\"]+\"))?|\d+|'(?:[^']|'')*')"
COMPARED = re.compile(rf"(?<![-+*.] ){SIDE} (=|<>|<=|>=|<|>) {SIDE}(?! [-+*(.])")
TURNED = {">": "<", ">=": "<="}


@dataclass(frozen=True)
class Edit:
    """A change of one place of a query, with the text that it makes."""

    change: Change
    text: str
    clause: Clause

    @property
    def kind(self) -> Kind:
        return self.change.kind

    @property
    def cost(self) -> int:
        return self.change.cost

    @property
    def mistake(self) -> str:
        return self.change.mistake

    @property
    def place(self) -> Span:
        return self.change.place

    @property
    def rank(self) -> tuple[int, int, int]:
        """The least change goes first, then the innermost and the shortest place."""
        return self.cost, -self.clause.depth, self.place.end - self.place.begin


def edits(query: Query, families: Sequence[Family] = REPAIRS, most: int = MOST) -> list[Edit]:
    """At most so many; two that are the same but for the sides of comparisons are one."""
    clauses, keys = Clauses(query), Keys(query.text)
    made: list[Change] = []
    for node in query.nodes():
        if id(node) in query.spans.of:
            for family in families:
                made += family(node, query)
    found: list[Edit] = []
    seen = {keys.own}
    for change in sorted(made, key=lambda one: one.cost):
        key = keys.of(change)
        if key not in seen:
            seen.add(key)
            found.append(Edit(change, change.on(query.text), clauses.of(change.place)))
            if len(found) == most:
                break
    return sorted(found, key=lambda one: one.rank)


class Keys:
    """Texts without white space and comments, with the sides of their comparisons in one order."""

    def __init__(self, text: str) -> None:
        self.text = text
        self.begins: dict[int, str] = {}
        self.ends: dict[int, str] = {}
        self.own = ordered(canonical(tokens(text)))

    def of(self, change: Change) -> str:
        begin, end = change.instead
        if begin not in self.begins:
            self.begins[begin] = canonical(tokens(self.text[:begin]))
        if end not in self.ends:
            self.ends[end] = canonical(tokens(self.text[end:]))
        parts = (self.begins[begin], canonical(tokens(change.text)), self.ends[end])
        return ordered(" ".join(part for part in parts if part))


def ordered(text: str) -> str:
    return COMPARED.sub(turned, text)


def turned(match: re.Match[str]) -> str:
    left, sign, right = match[1], match[2], match[3]
    if sign in TURNED:
        return f"{right} {TURNED[sign]} {left}"
    if sign in ("=", "<>"):
        return f"{min(left, right)} {sign} {max(left, right)}"
    return match[0]
