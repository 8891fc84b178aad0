"""What is told of mutants and their verdicts."""
from __future__ import annotations

import csv
import io
from collections.abc import Iterator, Mapping, Sequence
from dataclasses import dataclass

from classroom.base.errors import Fault, shown
from classroom.base.csvcells import safe
from ratest.draw import counted
from classroom.mutants.proofs import OPEN, REFUSED, TOLD, Verdict
from classroom.mutants.question import Question
from classroom.verdict.decision import NOT_PROVED


@dataclass(frozen=True)
class Judged:
    """A query with its verdict."""

    of: Question
    verdict: Verdict


def check_written_back(back: Sequence[Question], verdicts: Sequence[Verdict]) -> None:
    """A Fault where sqlglot doesn't write a reference back as it means: its mutants would be
    others."""
    for of, verdict in zip(back, verdicts):
        if verdict.kind in (TOLD, REFUSED):
            raise Fault(
                f"task {shown(of.task)}: sqlglot writes reference.sql back as another query"
            )


def csv_of(made: Sequence[Judged]) -> bytes:
    text = io.StringIO(newline="")
    lines = csv.writer(text, lineterminator="\n")
    lines.writerow(("task", "mutant", "mistake", "verdict", "rows", "why", "query", "decided_by"))
    for one in kept(made):
        lines.writerow(
            map(
                safe,
                (
                    one.of.task,
                    one.of.name,
                    one.of.mistake,
                    one.verdict.kind,
                    str(one.verdict.rows or ""),
                    one.verdict.why,
                    one.of.text.decode("utf-8", "replace"),
                    one.verdict.decided_by,
                ),
            )
        )
    return text.getvalue().encode("utf-8", "replace")


def lines(tasks: Sequence[str], made: Sequence[Judged]) -> Iterator[str]:
    """For each task how many are told, and those that aren't."""
    for task in tasks:
        group = [one for one in made if one.of.task == task]
        yield f"task {shown(task)}: {summary(group)}{by_whom(group)}"
        yield from untold(group)


def untold(made: Sequence[Judged]) -> Iterator[str]:
    """Two lines for each that the rows don't tell: its mistake and its text."""
    for one in kept(made):
        if one.verdict.kind != TOLD:
            why = f", {shown(one.verdict.why)}" if one.verdict.why else ""
            yield (
                f"  {one.verdict.kind}{why}: {shown(one.of.mistake or f'the answer {one.of.name}')}"
            )
            yield f"    {shown(' '.join(one.of.text.decode('utf-8', 'replace').split()))}"


def summary(made: Sequence[Judged], noun: str = "mutant") -> str:
    """As `46 of 48 mutants told, 9 of 11 mutants told (tried)`: what is proved and what is tried
    are never one count."""
    read = kept(made)
    proved, tried = (
        [one for one in read if one.of.is_tried == is_tried] for is_tried in (False, True)
    )
    return ", ".join(
        f"{sum(one.verdict.kind == TOLD for one in group)} of"
        f" {counted(len(group), noun)} told{label}"
        for group, label in ((proved, ""), (tried, " (tried)"))
        if group or not (tried or label)
    )


def by_whom(made: Sequence[Judged]) -> str:
    """As `, by sqlite 3.40.1 and not proved`, of what was tried or a build without proofs said."""
    engines = sorted({one.verdict.engine for one in made} - {""})
    if any(one.verdict.decided_by == NOT_PROVED for one in made):
        engines.insert(0, "a build without proofs")
    return f", by {', '.join(engines)} and not proved" if engines else ""


def kept(made: Sequence[Judged]) -> list[Judged]:
    """Those that are read, by `ratest` or by the database that tries them."""
    return [one for one in made if one.verdict.kind != REFUSED]


def open_ones(made: Sequence[Judged]) -> int:
    return sum(one.verdict.kind == OPEN for one in made)


def rows_of(files: Mapping[str, bytes]) -> int:
    """How many rows the tables have."""
    texts = [
        text.decode("utf-8", "replace") for name, text in files.items() if name != "schema.sql"
    ]
    return sum(
        sum(1 for line in csv.reader(io.StringIO(text, newline="")) if line) - 1 for text in texts
    )
