"""The condition of a CHECK as `ratest` reads it: comparisons of columns and constants, joined by
AND and OR without parentheses; and what the condition of a database becomes in it.

What is written is No for just those rows for which the database's condition is No. Whatever might
differ in that is left out: texts that are compared otherwise than by their bytes, and sides whose
types differ. """
from __future__ import annotations

from collections.abc import Mapping
from dataclasses import dataclass, field
from typing import Union

from classroom.sql.schema import literal

# What a collation shares with the order of bytes.
NOTHING, EQUALITY, ORDER = range(3)


class Unread(Exception):
    """Why a condition is left out, as it goes on after `which`."""


@dataclass(frozen=True)
class Side:
    """A column or a constant; without a column and a value it is NULL."""

    column: str | None = None
    value: int | str | None = None
    kind: str | None = ""  # INTEGER or TEXT; None for a column of another type
    type: str = ""  # the database's own, where more than the kind counts
    texts: int | None = (
        None  # what its collation shares with the order of bytes; None where it has no say
    )
    told: bool = False  # by a COLLATE in the condition itself

    def written(self, names: Mapping[str, str]) -> str:
        return literal(self.value) if self.column is None else names[self.column]


@dataclass
class Leaf:
    form: str  # with {} for each side
    sides: tuple[Side, ...]
    negated: bool = False

    def written(self, names: Mapping[str, str]) -> str:
        return ("NOT " if self.negated else "") + self.form.format(
            *(side.written(names) for side in self.sides)
        )


@dataclass
class Joined:
    word: str  # AND or OR
    of: list[Node]


@dataclass
class Not:
    of: Node


Node = Union[Leaf, Joined, Not]
# An OR of ANDs: lists of parts, which are lists of leaves.
Parts = list[list[Leaf]]


@dataclass
class Check:
    name: str  # as it is told
    columns: set[str]  # that it names
    conditions: list[Parts] = field(default_factory=list)
    why: str = ""  # why it is left out

    def written(self, names: Mapping[str, str]) -> list[str]:
        return [
            "CHECK ("
            + " OR ".join(" AND ".join(leaf.written(names) for leaf in part) for part in parts)
            + ")"
            for parts in self.conditions
        ]


def spread(node: Node, negated: bool = False) -> Leaf | Joined:
    """The same without a NOT over what is joined, and without an AND in an AND or an OR in an
    OR."""
    if isinstance(node, Not):
        return spread(node.of, not negated)
    if isinstance(node, Leaf):
        return Leaf(node.form, node.sides, negated)
    word = {"AND": "OR", "OR": "AND"}[node.word] if negated else node.word
    of: list[Node] = []
    for part in (spread(part, negated) for part in node.of):
        of += part.of if isinstance(part, Joined) and part.word == word else [part]
    return Joined(word, of)


def parts_of(node: Node) -> Parts:
    """The parts of an OR of ANDs."""
    whole = node.of if isinstance(node, Joined) and node.word == "OR" else [node]
    parts = []
    for part in whole:
        members = part.of if isinstance(part, Joined) else [part]
        leaves = [leaf for leaf in members if isinstance(leaf, Leaf)]
        if len(leaves) < len(members):
            raise Unread("needs parentheses")
        parts.append(leaves)
    return parts


def conditions_of(node: Node) -> list[Parts]:
    """A row meets an AND where it meets each of its parts: so those that have an OR become CHECKs
    of their own."""
    spread_out = spread(node)
    if isinstance(spread_out, Leaf) or spread_out.word == "OR":
        return [parts_of(spread_out)]
    plain = [leaf for leaf in spread_out.of if isinstance(leaf, Leaf)]
    return ([[plain]] if plain else []) + [
        parts_of(part) for part in spread_out.of if isinstance(part, Joined)
    ]
