"""An answer with what is known of it: its runs and the verdict that they come to."""
from __future__ import annotations

import re
from collections.abc import Sequence
from dataclasses import dataclass

from classroom.exercise.exercise import Answer, Task
from classroom.exercise.settings import Settings
from classroom.grading.decide import LIMIT, decide
from classroom.process.limits import Ran
from classroom.verdict import sentences, witness
from classroom.verdict.decision import NOT_PROVED, PROVED, Decision, Grade
from classroom.verdict.verdict import Differs, Verdict
from classroom.verdict.witness import Outcome
from ratest.schema import Table

# What differs from one answer to the next: places in the text, and what it would cost.
PLACE = re.compile(r" (?:near byte|at byte|from byte|at) [0-9]+|(?<=work) [0-9]+(?= is above)")


@dataclass(frozen=True)
class Graded:
    """An answer, its verdict and the records that it rests on."""

    task: Task
    answer: Answer
    decision: Decision
    outcome: Outcome | None = None  # of `ratest`; None where it was not asked
    ran: Ran | None = None
    key: str = ""  # of the record of its run
    trial: Verdict | None = None  # what a database said of it
    trial_key: str = ""  # of the record of that
    others: tuple[Graded, ...] = ()  # the same answer against the task's other references

    @property
    def grade(self) -> Grade:
        return self.decision.grade

    @property
    def fault(self) -> str:
        return self.decision.fault

    @property
    def remarks(self) -> tuple[str, ...]:
        return tuple(map(sentences.note, self.decision.notes))

    @property
    def is_open(self) -> bool:
        return self.decision.is_open

    @property
    def of_reference(self) -> str:
        return self.decision.of_reference

    @property
    def is_tried(self) -> bool:
        """Whether the grade comes from trying."""
        return self.decision.is_tried

    @property
    def decided_by(self) -> str:
        """Where the grade comes from: PROVED, NOT_PROVED or an engine; empty where there is no
        verdict."""
        return self.decision.by

    @property
    def record(self) -> str:
        """The key of the record that says most of it; empty where there is none."""
        return self.trial_key or self.key

    @property
    def tried_witness(self) -> Differs | None:
        return (
            self.trial.outcome
            if self.trial and self.is_tried and isinstance(self.trial.outcome, Differs)
            else None
        )

    @property
    def rows(self) -> int | None:
        """How many rows the witness has, or the best ones that are known."""
        if self.tried_witness:
            return len(self.tried_witness.kept)
        if isinstance(self.outcome, witness.Witness):
            return len(self.outcome.kept)
        if isinstance(self.outcome, witness.Undecided) and self.outcome.best is not None:
            return len(self.outcome.best)
        return None

    @property
    def share(self) -> float | None:
        """Of the task's points, by the verdict; None where there is no score."""
        return None if self.is_open else self.grade.share

    @property
    def why(self) -> str:
        """The fault and the remarks in one text."""
        return "; ".join(filter(None, (self.whole_fault, *self.remarks)))

    @property
    def whole_fault(self) -> str:
        """The fault with what is of the reference, for the teacher."""
        return "; ".join(
            filter(
                None, (self.fault, self.of_reference and f"{self.task.source}: {self.of_reference}")
            )
        )

    @property
    def reason(self) -> str:
        """Why it has no score, without what is of this text alone."""
        why = self.whole_fault or (
            self.remarks[-1] if self.grade == Grade.AGREES and self.remarks else ""
        )
        return f"{self.grade}: {PLACE.sub('', why)}" if why else str(self.grade)


def grade(
    task: Task,
    answer: Answer,
    tables: Sequence[Table],
    said: Settings,
    ran: Ran | None = None,
    key: str = "",
    trial: Verdict | None = None,
    trial_key: str = "",
    is_proved: bool = True,
) -> Graded:
    """An answer by its run over these tables and its trial, each None where there was none."""
    outcome = witness.read(ran, tables) if ran else None
    prover = PROVED if is_proved else NOT_PROVED
    made = decide(task, answer, outcome, trial, said, prover)
    return Graded(task, answer, made, outcome, ran, key, trial, trial_key if trial else "")


def passes_limit(of: Graded) -> bool:
    """Whether over fewer rows it might have a verdict."""
    return of.grade == Grade.NO_VERDICT and (
        of.fault.startswith(LIMIT) or bool(of.ran and of.ran.passed)
    )
