"""One question: what is kept of it, else a call of `ratest` within limits."""
from __future__ import annotations

import json
import logging
import tempfile
from collections.abc import Sequence
from dataclasses import dataclass
from pathlib import Path
from typing import TYPE_CHECKING, NamedTuple

from classroom.process import limits as limited
from classroom.verdict import witness
from classroom.base.errors import Fault
from classroom.process.limits import Limits, Ran
from classroom.web.questions import key_of
from classroom.web.served_exercise import Material, Offered
from classroom.web.cache import Recent
from classroom.web.queue import Places
from classroom.engines.own_answer import Run
from classroom.engines.run_child import Failed, Trier
from classroom.verdict.verdict import Differs, Refusal, Verdict, is_of_limit, to_json
from classroom.exercise.exercise import Answer as SubmittedAnswer
from classroom.exercise.exercise import Task
from classroom.grading.decide import is_open
from classroom.grading.graded import Graded, grade
from classroom.grading.nearest import distance
from classroom.sql.clean import CleanText
from classroom.grading.trials import Trial, text_of
from classroom.verdict.witness import Died, Outcome, Refused, Undecided
from ratest import printed

if TYPE_CHECKING:
    from classroom.web.visitors import Visitor

MOST_BYTES = 65_536
# Of the time of a question, what is left for the best rows so far where the whole search takes too
# long; and the budget of conflicts with which these are looked for.
LAST = 0.3
FEW_CONFLICTS = 50
# Bytes that are kept of a call beside its texts.
OVERHEAD = 1000
log = logging.getLogger(__name__)


@dataclass(frozen=True)
class Answered:
    """A question's outcome, and the call that gave it."""

    task: Offered  # by the reference that it was compared with
    key: str  # of the text, and of all that its verdict rests on
    outcome: Outcome
    ran: Ran
    trial: Verdict | None = None  # what a database said of it


class Decided(NamedTuple):
    """What is kept of a question."""

    ran: Ran
    trial: Verdict | None = None


class Budget(NamedTuple):
    """The bounds of a search, as `ratest` takes them."""

    conflicts: int
    work: int | None = None

    def options(self) -> list[str]:
        return [
            "--conflicts",
            str(self.conflicts),
            *(["--work", str(self.work)] if self.work else []),
        ]


class Asker:
    """Answers questions about one material, from any number of threads."""

    def __init__(
        self,
        material: Material,
        words: Sequence[str],
        limits: Limits,
        budget: Budget,
        places: Places,
        kept: Recent[Decided],
        foundation: str,
        trial: Trial | None = None,
        trier: Trier | None = None,
        runner: Trier | None = None,
    ) -> None:
        """`words` call the program; `foundation` is what its verdicts rest on, as a digest. What it
        leaves open the trier tries, and a query alone the runner runs, if there is one."""
        self.material = material
        self.words = tuple(words)
        self.limits = limits
        self.budget = budget
        self.places = places
        self.kept = kept
        self.foundation = foundation
        self.trial, self.trier, self.runner = trial, trier, runner
        self.is_proved = not limited.has_checks(self.words)

    def ask(self, task: Offered, text: str, visitor: Visitor) -> Answered:
        """The answer to a query of at most MOST_BYTES bytes, by the reference that speaks most for
        it; Busy where too many ask."""
        best = self._ask_by(task, text, visitor)
        for other in task.others:
            if self.distance(best)[0] == 0:
                break
            best = min(best, self._ask_by(other, text, visitor), key=self.distance)
        return best

    def distance(self, answered: Answered) -> tuple[int, int]:
        """As of `nearest`."""
        return distance(self.graded(answered, CleanText()))

    def graded(self, answered: Answered, text: CleanText) -> Graded:
        """The grade that an answer with this text would get."""
        task = answered.task
        fault = "its reference is refused" if task.is_tried else ""
        return grade(
            Task(task.name, Path(), fault=fault),
            SubmittedAnswer("", text),
            self.material.tables,
            self.material.settings,
            answered.ran,
            trial=answered.trial,
        )

    def _ask_by(self, task: Offered, text: str, visitor: Visitor) -> Answered:
        key = key_of(self.foundation, task.name, task.digest, text)
        told = self.kept.get(key)
        if told is None:
            # Who shows no cookie is one with all of the network who don't.
            with self.places.one(
                visitor.key if visitor.is_known else visitor.network, visitor.network
            ):
                # Another may have asked the same meanwhile.
                told = self.kept.get(key) or self._asked(key, task, text)
        return Answered(
            task, key, witness.read(told.ran, self.material.tables), told.ran, told.trial
        )

    def run(self, text: str, visitor: Visitor) -> Run | None:
        """What a query returns by itself; None where no database can be asked. Busy where too many
        ask."""
        if self.runner is None:
            return None
        who = visitor.key if visitor.is_known else visitor.network
        try:
            with self.places.one(who, visitor.network):
                return self.runner.run(text_of(text.encode("utf-8", "replace")))
        except Fault as fault:
            log.error("a query is not run: %s", fault.how if isinstance(fault, Failed) else fault)
            return None

    def _asked(self, key: str, task: Offered, text: str) -> Decided:
        """What `ratest` says, and where that is open a database."""
        if task.is_tried:
            ran, is_final = Ran(printed.REFUSED, b"", b"", 0.0, ""), True
        else:
            ran, is_final = self._run(task, text.encode("utf-8", "replace"))
        told = Decided(ran, self._tried(task, text, witness.read(ran, self.material.tables)))
        if is_final or told.trial and not is_of_limit(told.trial.outcome):
            # What a busy machine had no time for may be answered the next time.
            size = (
                len(ran.stdout)
                + len(ran.stderr)
                + (len(json.dumps(to_json(told.trial))) if told.trial else 0)
            )
            self.kept.put(key, told, size + OVERHEAD)
        return told

    def _tried(self, task: Offered, text: str, outcome: Outcome) -> Verdict | None:
        if not self.trial or not self.trier:
            return None
        agrees = isinstance(outcome, witness.Agree)
        if not (self.trial.reports if agrees else task.is_tried or is_open(outcome)):
            return None
        try:
            reference = text_of((self.material.folder / task.reference).read_bytes())
            found = self.trier.ask(reference, text_of(text.encode("utf-8", "replace")), agrees)
        except Failed as fault:
            # Its last words may have texts of the two queries.
            log.error("task %a is not tried: %s", task.name, fault.how)
            return None
        except Fault as fault:
            log.error("task %a is not tried: %s", task.name, fault)
            return None
        # What is told of a refused reference may name what stands in it.
        if isinstance(found.outcome, Refusal) and found.outcome.is_reference:
            log.error(
                "task %a is not tried: %s does not answer its reference", task.name, found.engine
            )
            return None
        return found

    def _run(self, task: Offered, text: bytes) -> tuple[Ran, bool]:
        """The call, and whether a further one would bring nothing else."""
        with tempfile.NamedTemporaryFile(dir=self.material.folder, prefix="question-") as file:
            file.write(text)
            file.flush()
            words = [*self.words, "schema.sql", ".", task.reference, Path(file.name).name]
            ran = self._within([*words, *self.budget.options()], 1 - LAST)
            has_time = ran.passed != "time"
            if not has_time:
                best = self._within(
                    [*words, *self.budget._replace(conflicts=FEW_CONFLICTS).options()], LAST
                )
                ran = ran if best.passed else best
        outcome = witness.read(ran, self.material.tables)
        if isinstance(outcome, Refused) and outcome.part not in ("query 2", "queries"):
            # It may name what stands in the reference.
            ran, outcome = Ran(printed.FILE_FAULT, b"", b"", ran.seconds, ""), Died(
                printed.FILE_FAULT, ""
            )
        if isinstance(outcome, Died):
            log.error("task %a: no verdict: status %d", task.name, ran.status)
            return ran, False
        return ran, has_time

    def _within(self, words: Sequence[str], part: float) -> Ran:
        limits = self.limits._replace(seconds=self.limits.seconds * part)
        return limited.run(words, limits, str(self.material.folder))


def shows_rows(outcome: Outcome, trial: Verdict | None = None) -> bool:
    """Whether rows belong to what is told: a counterexample, or one that is returned another number
    of times."""
    return (
        is_mistake(outcome, trial)
        or trial is not None
        and any(remark.line for remark in trial.remarks)
    )


def is_mistake(outcome: Outcome, trial: Verdict | None = None) -> bool:
    """Whether the two queries are known to differ."""
    if trial and isinstance(trial.outcome, Differs):
        return True
    return (
        isinstance(outcome, witness.Witness)
        or isinstance(outcome, Undecided)
        and outcome.best is not None
    )
