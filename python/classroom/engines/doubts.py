"""What the looks at parts showed of the reference alone."""
from __future__ import annotations

from classroom.engines.answer_lines import kept_rows
from classroom.engines.engine import REFERENCE, Engine
from classroom.engines.looks import Looks
from classroom.exercise.part_masks import Parts
from classroom.sql.last_key import last_keys
from classroom.verdict.verdict import Doubt


def doubts_of(
    looks: Looks, engine: Engine, parts: Parts, reference: str, dialect: str
) -> tuple[Doubt, ...]:
    """That it has ties, and that it fails, each with the smallest of the parts that showed it."""
    made = []
    if looks.tie is not None:
        made.append(Doubt(kept_rows(looks.tie, parts), keys=last_keys(reference, dialect)))
    if looks.failing is not None:
        failure = engine.answers(looks.failing)[REFERENCE].failure
        made.append(Doubt(kept_rows(looks.failing, parts), failure or "it fails"))
    return tuple(made)
