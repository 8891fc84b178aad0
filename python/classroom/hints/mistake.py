"""What is found for one answer, as values of JSON."""
from __future__ import annotations

from collections.abc import Mapping
from dataclasses import dataclass
from typing import Any


PROVED = "proved"


@dataclass(frozen=True)
class Told:
    """One change."""

    mistake: str  # as `< for <=`
    kind: str
    where: str  # as `the inner query's WHERE`
    text: str  # the whole text with the change
    place: str  # the text that is changed
    begin: int  # of it, by characters; of a text that is written back these are places there
    end: int


@dataclass(frozen=True)
class Step:
    """One hint to a student."""

    step: int
    text: str
    begin: int | None  # of the place in the student's text
    end: int | None


@dataclass(frozen=True)
class Mistake:
    """What is found for one answer."""

    repairs: tuple[Told, ...] = ()  # changes of the answer, the best first
    classes: tuple[Told, ...] = ()  # changes of the reference
    steps: tuple[Step, ...] = ()  # for the student
    pair: tuple[
        str, ...
    ] = ()  # two changes that make the answer right together, where one does not
    decided_by: str = PROVED  # or the database that tried
    fault: str = ""  # why nothing could be looked for

    @property
    def name(self) -> str:
        """By what answers are one class: as the reference with the change, else what has to be
        changed in the answer; empty where nothing was found."""
        if self.classes:
            first = self.classes[0]
            if first.mistake == "always empty":
                return first.mistake
            of_parts = first.kind in ("operand too many", "set operator")
            return f"as the reference with {first.mistake}" + (
                "" if of_parts else f" in {first.where}"
            )
        return (
            f"right with {self.repairs[0].mistake} in {self.repairs[0].where}"
            if self.repairs
            else ""
        )

    @property
    def is_tried(self) -> bool:
        return self.decided_by != PROVED

    @property
    def kind(self) -> str:
        return (
            self.repairs[0].kind if self.repairs else self.classes[0].kind if self.classes else ""
        )

    @property
    def where(self) -> str:
        """The place in the answer."""
        return self.repairs[0].where if self.repairs else ""


def to_json(of: Mistake) -> dict[str, Any]:
    return {
        "repairs": [vars(one) for one in of.repairs],
        "classes": [vars(one) for one in of.classes],
        "steps": [vars(one) for one in of.steps],
        "pair": list(of.pair),
        "decided_by": of.decided_by,
        "fault": of.fault,
    }


def from_json(read: Mapping[str, Any]) -> Mistake:
    """KeyError, TypeError or ValueError where it is no such value."""
    return Mistake(
        tuple(Told(**one) for one in read["repairs"]),
        tuple(Told(**one) for one in read["classes"]),
        tuple(Step(**one) for one in read["steps"]),
        tuple(map(str, read["pair"])),
        str(read["decided_by"]),
        str(read["fault"]),
    )
