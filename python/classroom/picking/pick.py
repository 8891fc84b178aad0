"""The whole of a pick: from the rows of a source to the files of an exercise."""
from __future__ import annotations

import logging
from collections.abc import Collection, Iterator, Mapping, Sequence
from dataclasses import dataclass
from pathlib import Path

from classroom.process import pool as parallel
from classroom.engines import ratest as program
from classroom.exercise import settings
from classroom.base.errors import Fault, shown
from classroom.process.limits import Limits
from classroom.mutants import mutants_csv as told
from classroom.mutants.proofs import OPEN, TOLD, Verdicts
from classroom.mutants.question import Question
from classroom.picking import shrink as dropping
from classroom.picking import rounds as passes
from classroom.picking import picked_database as picture
from classroom.exercise import sources
from classroom.picking import try_many as trying
from classroom.picking.ask_many import Proving
from classroom.picking.picked_database import Picture
from classroom.exercise.rows import Pool, Row
from classroom.picking.picked_tasks import Tasks, tasks_for
from classroom.picking.try_many import Trying
from classroom.exercise import guards as guard
from classroom.base.files import write
from classroom.grading.store import Results
from classroom.exercise.settings import Settings

LIMITS = Limits(120.0, 2000)
log = logging.getLogger(__name__)


@dataclass(frozen=True)
class Wanted:
    """What the words of the command say."""

    rows: int | None
    seed: str
    jobs: int | None
    options: tuple[
        str, ...
    ]  # of `ratest`; they bound a call, and not seconds, so that each run finds the same
    shows_progress: bool
    only_proved: bool = False
    engine: str | None = None  # that tries, where exercise.toml or the source shall not say it

    @property
    def means(self) -> parallel.Means:
        return parallel.Means(LIMITS, self.jobs, None, self.shows_progress)

    def tell(self, line: str) -> None:
        """How far it is, on a terminal alone."""
        if self.shows_progress:
            log.warning("%s", line)
        else:
            log.info("%s", line)


def pick(source: str, folder: Path, wanted: Wanted) -> int:
    """Writes the picked rows into the folder, and prints what they tell; gives the exit status."""
    if folder.is_dir() and Path(source).is_dir() and folder.samefile(source):
        raise Fault(
            f"{shown(source)}: the rows of this folder would be written over; take another one for"
            " the picked rows"
        )
    pool, notes = sources.read(source)
    for note in notes:
        log.warning("%s", note)
    given = tasks_for(source, folder)
    said = settings.read(folder, [task.name for task in given])
    ratest, plus = program.find(), program.find("ratest_plus")
    for one in (ratest, plus):
        program.told_proved(one, wanted.only_proved)
    results = Results(folder / "picking")
    with results.held() as work:
        held = picture.of_source(source, pool)
        used: set[str] = set()
        proving = Proving(pool, results, wanted.means, work, wanted.options, ratest, used)
        tasks = Tasks(proving, said, lambda: tries(held, said, wanted, results, work, used))
        tasks.add(given)
        found = passes.search(tasks.asking, tasks.asked, wanted.seed, wanted.tell)
        chosen = dropping.within(found.told, wanted.rows) if wanted.rows else found.told
        rows = dropping.needed(tasks.asking, chosen, wanted.tell)
        files = pool.files(rows)
        made = checked(folder, files, rows, tasks, found.refused, wanted)
        lost = [one.of for one in made if one.of in chosen and is_lost(one, chosen[one.of])]
        if lost:
            raise Fault(
                f"{len(lost)} queries are not told by the picked rows as before, as"
                f" {shown(lost[0].label)}"
            )
        for name, text in files.items():
            write(folder / name, text)
        held.keep(folder, rows)
        guard.keep(folder, pool, rows, wanted.seed)
        results.prune(used)
    for line in report(tasks.labels, made, pool, rows):
        print(line)
    return (
        1 if len(tasks.labels) < len(given) or any(one.verdict.kind == OPEN for one in made) else 0
    )


def tries(
    held: Picture, said: Settings, wanted: Wanted, results: Results, work: Path, used: set[str]
) -> Trying | None:
    """What tries the queries that `ratest` doesn't read; None where nothing is tried, or can't be,
    which is told."""
    if wanted.only_proved:
        return None
    try:
        return trying.of_source(held, said, wanted.engine, results, work, wanted.jobs, used)
    except Fault as fault:
        log.warning("nothing is tried: %s", fault)
        return None


def is_lost(one: told.Judged, rows: frozenset[Row]) -> bool:
    """Whether what was told of these rows is told no more; of what is proved, by as few."""
    return one.verdict.kind != TOLD or not one.of.is_tried and one.verdict.rows > len(rows)


def checked(
    folder: Path,
    files: Mapping[str, bytes],
    rows: Collection[Row],
    tasks: Tasks,
    refused: Collection[Question],
    wanted: Wanted,
) -> list[told.Judged]:
    """All asked once more, on the picked rows; what is kept of it `classroom mutants` finds."""
    asked = [of for of in tasks.asked if of not in refused]
    proved, tried = ([of for of in asked if of.is_tried == is_tried] for is_tried in (False, True))
    results = Results(folder / "mutants")
    with results.held() as work:
        verdicts = Verdicts(results.runs, files, ())
        found = verdicts.grade(proved, wanted.means, work)
        made = {of: told.Judged(of, found[verdicts.key(of)]) for of in proved}
        if tasks.trying and tried:
            made.update((one.of, one) for one in tasks.trying.checked(rows, tried, results))
        return [made[of] for of in asked]


def report(
    tasks: Sequence[str], made: Sequence[told.Judged], pool: Pool, rows: frozenset[Row]
) -> Iterator[str]:
    mutants = [one for one in made if one.of.mistake]
    answers = [one for one in made if not one.of.mistake]
    for task in tasks:
        group = [one for one in mutants if one.of.task == task]
        yield f"task {shown(task)}: {told.summary(group)}{told.by_whom(group)}"
        yield from told.untold([one for one in made if one.of.task == task])
    also = f", {told.summary(answers, 'answer')}," if answers else ""
    yield f"{told.summary(mutants)}{also} by {len(rows):,} of {pool.total:,} rows"
