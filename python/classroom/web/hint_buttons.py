"""Hints: where the mistake of a query is, in steps, each of which is asked for."""
from __future__ import annotations

import logging
from collections.abc import Sequence
from dataclasses import dataclass, replace
from datetime import datetime
from pathlib import Path

from classroom.engines import ratest as program
from classroom.exercise.exercise import Exercise
from classroom.base.errors import Fault, library
from classroom.hints import ask_children as asking
from classroom.exercise import guards as guard
from classroom.hints import steps_shown as steps_of
from classroom.hints.target import Looked
from classroom.hints.mistake import Mistake, Step
from classroom.web.served_exercise import Material, Offered
from classroom.web.cache import Recent
from classroom.web.visitors import Visitor
from classroom.web.queue import Places
from classroom.exercise.typed_rows import POSTGRESQL, SQLITE
from classroom.grading.trials import Trial
from ratest.places import Place

SECONDS = 10.0
KEPT_BYTES = 16_000_000
OVERHEAD = 500
BUTTONS = ("Where is the mistake?", "Show the place", "What kind of mistake is it?")
NOTHING = "No single change was found with which the query answers rightly."
REST = "No more hints are shown to you within this hour."
log = logging.getLogger(__name__)


@dataclass(frozen=True)
class Hinted:
    """What is shown of hints below an answer."""

    texts: tuple[str, ...] = ()
    place: Place | None = None
    button: str = ""  # what asks for the next step; empty where there is none
    step: int = 1  # that it asks for


class Hinter:
    """Looks for hints to questions about one material, from any number of threads."""

    def __init__(
        self,
        material: Material,
        other_rows: Path | None,
        most: int,
        begins: datetime | None,
        pythons: tuple[Sequence[str], Sequence[str]],
        places: Places,
        trial: Trial | None = None,
    ) -> None:
        """`other_rows` is the folder of the guard; `pythons` are the words that call an
        interpreter, and one that has the network, for a database there, which the trial has."""
        self.material = material
        self.means = asking.Means(material.folder, other_rows, classes=False)
        self.most = most
        self.begins = begins
        self.python, self.with_network = (tuple(words) for words in pythons)
        self.trial = trial if trial and trial.material.product == POSTGRESQL else None
        self.places = places
        self.kept: Recent[Mistake] = Recent(KEPT_BYTES)

    def knows(self, how: Looked | None) -> bool:
        """Whether hints can be looked for so."""
        return how is not None and (
            how.product in ("", SQLITE) or how.product == POSTGRESQL and self.trial is not None
        )

    def is_open(self) -> bool:
        return steps_of.are_open(self.most, self.begins)

    def steps(
        self, key: str, task: Offered, text: str, visitor: Visitor, how: Looked
    ) -> tuple[Step, ...]:
        """All steps of a query with this key. Busy where too many ask."""
        found = self.kept.get(key)
        if found is None:
            with self.places.one(
                visitor.key if visitor.is_known else visitor.network, visitor.network
            ):
                found = self.kept.get(key) or self._look(key, task, text, how)
        return found.steps[: self.most]

    def _look(self, key: str, task: Offered, text: str, how: Looked) -> Mistake:
        reference = (self.material.folder / task.reference).read_text(
            encoding="utf-8", errors="replace"
        )
        try:
            is_local = how.product != POSTGRESQL
            means = replace(self.means, how=how, trial=None if is_local else self.trial)
            found = asking.ask(
                means,
                asking.bare(reference),
                {key: asking.bare(text)},
                SECONDS,
                self.python if is_local else self.with_network,
            )[key]
        except (Fault, OSError) as fault:
            log.error("task %a: no hint: %s", task.name, fault)
            return Mistake()
        if found.fault != asking.LATE:
            # What a busy machine had no time for may be found the next time.
            self.kept.put(key, found, len(repr(found)) + OVERHEAD)
        return found


def shown(steps: Sequence[Step], asked: int, text: str) -> Hinted:
    """What is shown where a step was asked for: it, and those before it."""
    if not steps:
        return Hinted((NOTHING,))
    seen = steps[:asked]
    place = next((found for one in seen if (found := steps_of.place_of(one, text))), None)
    has_more = len(seen) < len(steps)
    return Hinted(
        tuple(one.text for one in seen),
        place,
        BUTTONS[len(seen)] if has_more else "",
        len(seen) + 1,
    )


def hinter(
    given: Exercise,
    material: Material,
    other_rows: Path,
    pythons: tuple[Sequence[str], Sequence[str]],
    places: Places,
    trial: Trial | None,
) -> Hinter | None:
    """The hints of an exercise, whose guard is copied into an empty folder; None where none are
    told, or what they need is not there."""
    if not given.settings.hints:
        return None
    try:
        library("sqlglot", "python3-sqlglot")
        program.there("ratest_plus")
    except Fault as fault:
        log.warning("hints are not offered: %s", fault)
        return None
    pool = guard.kept(given.folder)
    if pool:
        for name, text in pool.files(pool.lawful).items():
            (other_rows / name).write_bytes(text)
    return Hinter(
        material,
        other_rows if pool else None,
        given.settings.hints,
        given.settings.hints_from,
        pythons,
        places,
        trial,
    )
