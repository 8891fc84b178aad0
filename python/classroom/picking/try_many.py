"""Asks a database about queries that `ratest` doesn't read, over some rows of a source."""
from __future__ import annotations

from collections.abc import Collection, Sequence
from dataclasses import dataclass, replace
from pathlib import Path

from classroom.grading import trials as tried
from classroom.mutants import mutant_trials as trying
from classroom.mutants.question import Question
from classroom.mutants.mutants_csv import Judged
from classroom.picking.finding import Finding, Kind
from classroom.picking.picked_database import Picture
from classroom.exercise.rows import Pool, Row
from classroom.grading.store import Results
from classroom.sql.schema import Table
from classroom.exercise.settings import Settings
from classroom.exercise import typed_rows as material
from classroom.verdict.verdict import (
    Differs,
    NoDifference,
    NotDetermined,
    is_of_limit,
    Verdict,
)
from classroom.grading.trials import Trial

# At parts, for one query over some rows: they bound it and not seconds, so that each run finds the
# same.
LOOKS = 3_000


@dataclass(frozen=True)
class Trying:
    """Over what and with what is tried."""

    pool: Pool  # in whose numbers rows are told
    whole: Trial  # over all rows of the source
    results: Results
    jobs: int | None
    used: set[str]  # the keys of the records that this run needed
    places: dict[
        str, int
    ]  # of the tables in the trial's material, by the names that they have in both

    @property
    def tables(self) -> list[Table]:
        return [held.table for held in self.whole.material.pool.held]

    def over(self, rows: Collection[Row], asked: Sequence[Question]) -> dict[Question, Finding]:
        found = self.verdicts(rows, asked)
        return {of: self.finding(found.get(of), rows) for of in asked}

    def verdicts(self, rows: Collection[Row], asked: Sequence[Question]) -> dict[Question, Verdict]:
        """The verdicts over some rows; none where a process failed, which is told."""
        trial = self.part(rows)
        trial = replace(trial, options=replace(trial.options, looks=LOOKS))
        self.used.update(trying.keys(trial, asked).values())
        return trying.asked(trial, asked, self.results, self.jobs)

    def part(self, rows: Collection[Row]) -> Trial:
        """The trial over some rows alone."""
        names = [held.table.name for held in self.pool.held]
        return self.whole.over(
            material.of_rows(
                self.whole.material,
                [Row(self.places[names[row.table]], row.number) for row in rows],
            )
        )

    def finding(self, found: Verdict | None, rows: Collection[Row]) -> Finding:
        outcome = found.outcome if found else None
        if isinstance(outcome, Differs):
            kept = self.pool.named(outcome.kept, rows)
            # What the plain tables refer to is picked too; a row that they can't have is in no
            # part.
            needed = (
                frozenset(other for row in kept for other in self.pool.with_targets(row))
                if kept <= self.pool.lawful
                else None
            )
            return (
                Finding(Kind.SHOWN, needed)
                if needed is not None and needed <= set(rows)
                else Finding(Kind.SAME)
            )
        if isinstance(outcome, (NoDifference, NotDetermined)):
            return Finding(Kind.SAME)
        return Finding(Kind.PASSED if outcome is None or is_of_limit(outcome) else Kind.REFUSED)

    def checked(
        self, rows: Collection[Row], asked: Sequence[Question], results: Results
    ) -> list[Judged]:
        """All tried once more on the picked rows, as `classroom mutants` does."""
        return trying.told(asked, trying.asked(self.part(rows), asked, results, self.jobs))


def of_source(
    picture: Picture,
    said: Settings,
    engine: str | None,
    results: Results,
    work: Path,
    jobs: int | None,
    used: set[str],
) -> Trying:
    """What tries over the rows of a source; a Fault where the engine can't be had."""
    pool = picture.pool
    whole = tried.trial_over(
        picture.material(work), lambda: Pool(pool.schema, pool.held), said, tried.SECONDS, engine
    )
    places = {held.table.name: at for at, held in enumerate(whole.material.pool.held)}
    return Trying(pool, whole, results, jobs, used, places)
