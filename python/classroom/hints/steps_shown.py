"""When hints are told, and where in a student's text one points to."""
from __future__ import annotations

from datetime import datetime, timezone

from classroom.hints import ask_children as asking
from classroom.hints.mistake import Mistake, Step
from classroom.exercise.settings import Settings
from ratest.places import Place


def are_open(most: int, begins: datetime | None, now: datetime | None = None) -> bool:
    """Whether steps up to `most` are told at a moment."""
    return most > 0 and (begins is None or (now or datetime.now(timezone.utc)) >= begins)


def told(of: Mistake | None, settings: Settings) -> tuple[Step, ...]:
    """The steps that a student is told now of a mistake, as `exercise.toml` says."""
    return (
        of.steps[: settings.hints] if of and are_open(settings.hints, settings.hints_from) else ()
    )


def place_of(step: Step, text: str) -> Place | None:
    """The place that a step points to; None where it is none."""
    if step.begin is None or step.end is None:
        return None
    # It was looked for in the text without what stands before its first word.
    begin, end = (at + asking.begins(text) for at in (step.begin, step.end))
    before = text[:begin]
    return Place(
        before.count("\n") + 1,
        begin - (before.rfind("\n") + 1) + 1,
        before,
        text[begin:end],
        text[end:],
    )
