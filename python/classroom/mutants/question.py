"""What an exercise is asked about: the mutants of each reference, and the answers that are
there."""
from __future__ import annotations

from collections.abc import Sequence
from dataclasses import dataclass

from classroom.exercise.exercise import Task
from classroom.base.errors import Fault, shown
from classroom.edits.families import MISTAKES, Family
from classroom.mutants.mutants import mutants, plain
from classroom.sql.schema import Table, unmarked


@dataclass(frozen=True)
class Question:
    """A query that is compared with the reference of its task."""

    task: str  # the name of the task
    reference: bytes
    text: bytes
    mistake: str  # empty of an answer
    name: str  # of an answer; of a mutant its number in its task, from 1
    is_tried: bool = False  # by a database, since `ratest` doesn't read one of the two

    @property
    def label(self) -> str:
        """As `3: < for =` or `3: the answer anna`."""
        return (
            f"{self.task}: {self.mistake}"
            if self.mistake
            else f"{self.task}: the answer {self.name}"
        )


def of_mutants(
    task: Task, tables: Sequence[Table], families: Sequence[Family] = MISTAKES
) -> list[Question]:
    """The mutants of a task's reference; a Fault where they can't be made."""
    reference = task.reference
    try:
        made = mutants(text_of(reference), tables, families)
    except Fault as fault:
        raise Fault(f"task {shown(task.name)}: reference.sql: {fault}") from None
    return [
        Question(task.label, reference, mutant.text.encode(), mutant.mistake, str(number))
        for number, mutant in enumerate(made, 1)
    ]


def written_back(task: Task) -> Question:
    """The reference as it stands in the mutants, which has to mean the same."""
    reference = task.reference
    return Question(
        task.label, reference, plain(text_of(reference)).encode(), "as it is written back", "0"
    )


def of_answers(task: Task) -> list[Question]:
    """The answers of a task that can be read."""
    return [
        Question(task.label, task.reference, answer.text.query, "", answer.label)
        for answer in task.answers
        if not answer.fault
    ]


def text_of(query: bytes) -> str:
    return unmarked(query.decode("utf-8", "replace")).strip().removesuffix(";")
