"""Grades many queries by `ratest_plus grade`, in lists over all cores, and keeps each verdict."""
from __future__ import annotations

import json
import os
from collections.abc import Mapping, Sequence
from dataclasses import asdict, dataclass, replace
from pathlib import Path

from classroom.process import pool as parallel
from classroom.engines import ratest as program
from classroom.exercise.exercise import digest
from classroom.process.limits import Ran
from classroom.mutants.question import Question
from classroom.base.files import write
from classroom.verdict.decision import NOT_PROVED, PROVED
from ratest import printed

MOST_IN_LIST = 256  # that the program takes
# In few lists a core may wait for one with the slow queries; in many the rows are read more often.
SHORT_LIST = 8
AGREES, TOLD, REFUSED, OPEN = "agrees", "told", "refused", "no verdict"
# Of a database that tries.
NOT_FOUND, NOT_DETERMINED = "no difference found", "not determined"


@dataclass(frozen=True)
class Verdict:
    """What is known of a query."""

    kind: str  # AGREES, TOLD, REFUSED, or OPEN where a limit was passed; of trying also NOT_FOUND, NOT_DETERMINED
    rows: int = 0  # of the witness
    why: str = ""  # it is refused or open
    engine: str = ""  # of a database that tried; empty of what `ratest` says
    is_proved: bool = True  # of what `ratest` says: False where a build without proofs said it

    @property
    def decided_by(self) -> str:
        """PROVED, NOT_PROVED or the engine; empty where there is no verdict."""
        if self.kind in (OPEN, REFUSED):
            return ""
        return self.engine or (PROVED if self.is_proved else NOT_PROVED)


class Verdicts:
    """The verdicts that are kept in a folder, one file each, over these files and options."""

    def __init__(self, folder: Path, files: Mapping[str, bytes], options: Sequence[str]) -> None:
        self.folder = folder
        self.files = files
        self.options = tuple(options)
        self.program = program.find("ratest_plus")
        self.is_proved = program.is_proved(self.program)
        self.common = digest(
            b"1",
            self.program.read_bytes(),
            *(word.encode() for word in options),
            *(
                part
                for name, text in files.items()
                for part in (name.encode("utf-8", "surrogateescape"), text)
            ),
        )
        folder.mkdir(parents=True, exist_ok=True)

    def key(self, of: Question) -> str:
        return digest(self.common.encode(), of.reference, of.text)

    def kept(self, of: Question) -> Verdict | None:
        try:
            kept = Verdict(**json.loads((self.folder / f"{self.key(of)}.json").read_bytes()))
            return replace(kept, is_proved=self.is_proved)
        except (OSError, ValueError, TypeError):
            return None

    def keep(self, key: str, verdict: Verdict) -> None:
        write(self.folder / f"{key}.json", (json.dumps(asdict(verdict)) + "\n").encode("ascii"))

    def grade(
        self, asked: Sequence[Question], means: parallel.Means, work: Path
    ) -> dict[str, Verdict]:
        """The verdicts by their keys. What passes a limit of time or memory in a list is asked once
        more alone."""
        found = {self.key(of): verdict for of in asked if (verdict := self.kept(of))}
        for most in (SHORT_LIST, 1):
            left = {self.key(of): of for of in asked if self.key(of) not in found}
            found.update(self.graded(left, most, means, work))
        for of in asked:
            found.setdefault(
                self.key(of), Verdict(OPEN, why="no verdict within the limits of time and memory")
            )
        return found

    def graded(
        self, left: Mapping[str, Question], most: int, means: parallel.Means, work: Path
    ) -> dict[str, Verdict]:
        lists = lists_of(left, most, means)
        jobs, files, members = [], {}, {}
        for number, keys in enumerate(lists):
            reference = f"{digest(left[keys[0]].reference)}.reference"
            files[reference] = left[keys[0]].reference
            files[f"{number}.list"] = "".join(f"{key}\n" for key in keys).encode()
            files.update({key: left[key].text for key in keys})
            members[str(number)] = keys
            jobs.append(
                parallel.Job(
                    str(number),
                    ("grade", "schema.sql", ".", reference, f"{number}.list", *self.options),
                    (reference, f"{number}.list", *keys),
                    "ratest_plus",
                )
            )
        found: dict[str, Verdict] = {}
        for job, ran in parallel.run(
            jobs, {"ratest_plus": self.program}, self.files, files, means, work
        ):
            for key, verdict in read(ran, members[job]).items():
                found[key] = replace(verdict, is_proved=self.is_proved)
                self.keep(key, found[key])
        return found


def lists_of(left: Mapping[str, Question], most: int, means: parallel.Means) -> list[list[str]]:
    """The keys in lists, each over one reference."""
    by_reference: dict[bytes, list[str]] = {}
    for key, of in left.items():
        by_reference.setdefault(of.reference, []).append(key)
    cores = means.jobs or os.cpu_count() or 1
    size = min(MOST_IN_LIST, most, 1 + len(left) // (2 * cores))
    return [
        keys[start : start + size]
        for keys in by_reference.values()
        for start in range(0, len(keys), size)
    ]


def read(ran: Ran, keys: Sequence[str]) -> dict[str, Verdict]:
    """The verdicts of a list by their keys; none where the call failed."""
    if ran.passed or ran.status != printed.FINE:
        return {}
    try:
        grades = printed.grades_of(ran.stdout.decode("utf-8", "replace"), keys)
    except printed.Unreadable:
        return {}
    return {key: verdict_of(grade) for key, grade in zip(keys, grades)}


def verdict_of(grade: printed.Grade) -> Verdict:
    if grade.kind == "differs":
        return Verdict(TOLD, grade.rows or 0)
    kind = {"agrees": AGREES, "refused": REFUSED}.get(grade.kind, OPEN)
    return Verdict(kind, why=grade.fault or ("undecided" if grade.kind == "undecided" else ""))
