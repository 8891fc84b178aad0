"""As what a mistake is looked for: in the rows, in how often they come, or in their order; and by
whom it is decided."""
from __future__ import annotations

from dataclasses import dataclass

from classroom.grading.graded import Graded
from classroom.verdict.decision import Grade
from classroom.exercise.settings import Settings
from classroom.verdict.compare import DUPLICATES, ORDER, ROWS
from classroom.verdict.verdict import Differs, Verdict


@dataclass(frozen=True)
class Looked:
    """How answers are compared."""

    kind: str = ROWS  # or DUPLICATES, or ORDER
    engine: str = ""  # the database that tries; empty where it is proved

    @property
    def product(self) -> str:
        """As `sqlite`; empty where it is proved."""
        return self.engine.split()[0] if self.engine else ""


def looked(is_proved: bool, trial: Verdict | None, said: Settings) -> Looked | None:
    """How a mistake is looked for: `is_proved` tells that `ratest` found a difference, else the
    database that tried may have said so, or have remarked on duplicates or order; None where
    nothing differs."""
    if is_proved:
        return Looked()
    if trial is None:
        return None
    if isinstance(trial.outcome, Differs):
        kind = trial.outcome.difference
        return Looked(kind if kind in (DUPLICATES, ORDER) else ROWS, trial.engine)
    wanted = {DUPLICATES: said.duplicates, ORDER: said.order}
    found = [
        remark.difference
        for remark in trial.remarks
        if wanted.get(remark.difference, "ignore") != "ignore"
    ]
    return Looked(min(found), trial.engine) if found else None  # duplicates before order


def of_graded(of: Graded, said: Settings) -> Looked | None:
    """The same of an answer that is graded; None too where it has no rows on which it differs."""
    if (
        not of.record
        or of.grade not in (Grade.DIFFERS, Grade.AGREES, Grade.NO_DIFFERENCE)
        or of.grade == Grade.DIFFERS
        and of.rows is None
    ):
        return None
    return looked(of.grade == Grade.DIFFERS and not of.is_tried, of.trial, said)
