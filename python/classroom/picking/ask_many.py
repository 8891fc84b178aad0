"""Asks about queries over some rows, many at once or one after another, and keeps what comes of it:
`ratest`, or where it doesn't read them a database."""
from __future__ import annotations

from collections.abc import Collection, Mapping, Sequence
from dataclasses import dataclass, replace
from pathlib import Path

from classroom.process import pool as parallel
from classroom.verdict import witness
from classroom.exercise.exercise import digest
from classroom.mutants.question import Question
from classroom.picking.finding import Asker, Finding, Kind
from classroom.exercise.rows import Pool, Row
from classroom.grading.store import Results
from classroom.verdict.witness import Outcome

FEW_ROWS, FEW_CALLS = 200, 4
# Over few rows a search may go on for longer.
FEW_OPTIONS = ("--conflicts", "20000")


@dataclass(frozen=True)
class Proving:
    """Over what and with what `ratest` is asked."""

    pool: Pool
    results: Results
    means: parallel.Means
    work: Path
    options: tuple[str, ...]
    ratest: Path
    used: set[str]  # the keys of the records that this run needed

    def key(self, common: str, of: Question) -> str:
        return digest(common.encode(), of.reference, of.text)

    def common(self, files: Mapping[str, bytes], options: Sequence[str]) -> str:
        return digest(
            b"pick 1",
            self.ratest.read_bytes(),
            *(word.encode() for word in options),
            *(
                part
                for name, text in files.items()
                for part in (name.encode("utf-8", "surrogateescape"), text)
            ),
        )

    def over(self, rows: Collection[Row], asked: Sequence[Question]) -> dict[Question, Finding]:
        return {
            of: self.finding(outcome, rows) for of, outcome in self.outcomes(rows, asked).items()
        }

    def finding(self, outcome: Outcome, rows: Collection[Row]) -> Finding:
        if isinstance(outcome, witness.Witness):
            return Finding(Kind.SHOWN, self.pool.named(outcome.kept, rows))
        if isinstance(outcome, witness.Refused):
            return Finding(Kind.REFUSED)
        return Finding(Kind.SAME if isinstance(outcome, witness.Agree) else Kind.PASSED)

    def outcomes(self, rows: Collection[Row], asked: Sequence[Question]) -> dict[Question, Outcome]:
        """The outcomes over some rows."""
        files = self.pool.files(rows)
        options = FEW_OPTIONS if len(rows) <= FEW_ROWS else self.options
        common = self.common(files, options)
        keys = {self.key(common, of): of for of in asked}
        self.used.update(keys)
        left = {
            key: of for key, of in keys.items() if not self.results.is_final(key, self.means.limits)
        }
        texts = {f"{digest(of.reference)}.reference": of.reference for of in left.values()}
        texts.update({f"{key}.answer": of.text for key, of in left.items()})
        jobs = []
        for key, of in left.items():
            names = (f"{digest(of.reference)}.reference", f"{key}.answer")
            jobs.append(parallel.Job(key, ("schema.sql", ".", *names, *options), names))
        is_long = len(rows) > FEW_ROWS and len(jobs) > FEW_CALLS
        means = replace(self.means, shows_progress=self.means.shows_progress and is_long)
        for key, ran in parallel.run(jobs, {"ratest": self.ratest}, files, texts, means, self.work):
            self.results.keep(key, ran, self.means.limits)
        return {of: self.outcome(self.key(common, of)) for of in asked}

    def outcome(self, key: str) -> Outcome:
        ran = self.results.run(key)
        return (
            witness.read(ran, [held.table for held in self.pool.held])
            if ran
            else witness.NoVerdict("time")
        )


@dataclass(frozen=True)
class Together:
    """`ratest`, and what tries; None where nothing is tried."""

    proving: Proving
    trying: Asker | None

    @property
    def pool(self) -> Pool:
        return self.proving.pool

    def over(self, rows: Collection[Row], asked: Sequence[Question]) -> dict[Question, Finding]:
        found = self.proving.over(rows, [of for of in asked if not of.is_tried])
        tried = [of for of in asked if of.is_tried]
        if self.trying and tried:
            found.update(self.trying.over(rows, tried))
        return found
