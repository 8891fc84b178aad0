"""The tasks that rows are picked for, and what is asked about each: by `ratest`, or where it
doesn't read the reference or an answer by a database."""
from __future__ import annotations

import logging
from collections.abc import Callable, Sequence
from pathlib import Path

from classroom.exercise import exercise
from classroom.exercise import settings
from classroom.verdict import witness
from classroom.exercise.exercise import Task
from classroom.base.errors import Fault, shown
from classroom.mutants import question as questions
from classroom.mutants import mutant_trials as trying
from classroom.mutants.question import Question
from classroom.exercise import parts
from classroom.picking.ask_many import Proving, Together
from classroom.picking.finding import Kind
from classroom.exercise.rows import Row
from classroom.picking.try_many import Trying
from classroom.base.files import write
from classroom.exercise.settings import Settings

FEW_ROWS = 100  # over which the references are tried
log = logging.getLogger(__name__)


def tasks_for(source: str, folder: Path) -> Sequence[Task]:
    """The tasks of the folder; where it has none, those of the source are copied into it with
    exercise.toml."""
    tasks = exercise.tasks_of(folder)[0] if folder.is_dir() else ()
    if tasks:
        return tasks
    given = exercise.tasks_of(Path(source))[0] if Path(source).is_dir() else ()
    if not given:
        raise Fault(f"{shown(str(folder))}: no task: neither reference.sql nor a folder with one")
    for task in given:
        place = folder if task.folder == Path(source) else folder / task.name
        (place / exercise.ANSWERS if task.answers else place).mkdir(parents=True, exist_ok=True)
        if not task.fault:
            write(place / exercise.REFERENCE, exercise.read(task.folder / exercise.REFERENCE))
        for answer in task.answers:
            if answer.fault:
                log.warning(
                    "task %s: the answer %s is not copied: %s",
                    shown(task.name),
                    shown(answer.name),
                    answer.fault,
                )
            else:
                write(place / exercise.ANSWERS / f"{answer.name}.sql", answer.text.whole)
    said = Path(source) / settings.FILE
    if said.is_file() and not (folder / settings.FILE).exists():
        write(folder / settings.FILE, said.read_bytes())
    return exercise.tasks_of(folder)[0]


class NotGraded(Fault):
    """Why nothing can be asked about one task."""


class Tasks:
    """The tasks that can be asked about, with what is asked of them."""

    def __init__(
        self, proving: Proving, said: Settings, tries: Callable[[], Trying | None]
    ) -> None:
        """`tries` is asked when something is to be tried, and no second time."""
        self.proving, self.said, self.tries = proving, said, tries
        self.trying: Trying | None = None
        self.is_looked_for = False
        self.labels: list[str] = []
        self.asked: list[Question] = []

    @property
    def asking(self) -> Together:
        return Together(self.proving, self.trying)

    def add(self, given: Sequence[Task]) -> None:
        """Adds the tasks; of those that can't be asked about it is told why not. A Fault where the
        schema or a row is refused, or no task is left."""
        for task in given:
            try:
                self.asked += [*self.mutants(task), *self.answers(task)]
                self.labels.append(task.label)
            except NotGraded as fault:
                log.warning("task %s is left out: %s", shown(task.name), fault)
        if not self.labels:
            raise Fault("there is no task whose reference can be asked about")

    def mutants(self, task: Task) -> list[Question]:
        """Of a task; NotGraded where nothing can be asked about it."""
        if task.fault:
            raise NotGraded(task.fault)
        itself = Question(task.label, task.reference, task.reference, "itself", "0")
        outcome = self.proving.outcomes(self.few(), [itself])[itself]
        if isinstance(outcome, witness.Refused):
            if not outcome.part.startswith("quer"):
                raise Fault(f"{outcome.part}: {shown(outcome.fault)}")
            if not self.can_try():
                raise NotGraded(f"reference.sql: {shown(outcome.fault)}")
        try:
            return (
                self.tried_mutants(task)
                if isinstance(outcome, witness.Refused)
                else self.proved_mutants(task)
            )
        except Fault as fault:
            raise NotGraded(str(fault).removeprefix(f"task {shown(task.name)}: ")) from None

    def few(self) -> list[Row]:
        return parts.first(self.proving.pool, FEW_ROWS)

    def proved_mutants(self, task: Task) -> list[Question]:
        back = questions.written_back(task)
        made = questions.of_mutants(task, [held.table for held in self.proving.pool.held])
        if self.proving.over(self.few(), [back])[back].kind in (Kind.REFUSED, Kind.SHOWN):
            raise Fault("sqlglot writes reference.sql back as another query")
        return made

    def tried_mutants(self, task: Task) -> list[Question]:
        assert self.trying
        back, made = trying.of_task(task, self.trying.tables, self.said)
        trying.check_back(task, self.trying.verdicts(self.few(), [back]).get(back))
        return made

    def answers(self, task: Task) -> list[Question]:
        """Those of a task, each asked of who reads it."""
        made = questions.of_answers(task)
        found = self.proving.over(self.few(), made)
        return [
            trying.tried(of) if found[of].kind == Kind.REFUSED and self.can_try() else of
            for of in made
        ]

    def can_try(self) -> bool:
        """Whether there is a database that tries."""
        if not self.is_looked_for:
            self.trying, self.is_looked_for = self.tries(), True
        return self.trying is not None
