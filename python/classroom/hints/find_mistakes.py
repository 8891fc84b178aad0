"""The mistakes of a whole class: each different text once, and what is kept of it for the next
time."""
from __future__ import annotations

import json
import logging
from collections.abc import Iterator, Mapping, Sequence
from concurrent.futures import ThreadPoolExecutor, as_completed
from dataclasses import replace
from functools import cached_property
from typing import NamedTuple

from classroom.process import pool as parallel
from classroom.engines import ratest as program
from classroom.base import log as tell
from classroom.grading import trials as tried
from classroom.exercise.exercise import Exercise, digest
from classroom.base.errors import Fault
from classroom.grading.graded import Graded
from classroom.hints import ask_children as asking
from classroom.exercise import guards as guard
from classroom.hints import target as looked
from classroom.hints import mistake as records
from classroom.hints.target import Looked
from classroom.hints.mistake import Mistake
from classroom.base.files import write
from classroom.exercise.typed_rows import POSTGRESQL, SQLITE
from classroom.grading.trials import Trial

FOLDER = "mistakes"  # below the results
FORMAT = b"3"
IN_BATCH = 16  # answers of one task that one process looks at
log = logging.getLogger(__name__)
TRIED_AGAIN = (asking.LATE, asking.FAILED)


class Batch(NamedTuple):
    """Answers that one process looks at."""

    how: Looked
    reference: str
    texts: dict[str, str]  # by the keys of what is kept


class Mistakes:
    """What is kept of an exercise, a file for each text, in EXERCISE/results/mistakes."""

    def __init__(self, given: Exercise, is_deep: bool = False) -> None:
        self.given = given
        self.folder = given.results / FOLDER
        self.guard = given.folder / guard.FOLDER if guard.kept(given.folder) else None
        files = sorted(self.guard.iterdir()) if self.guard else []
        self.common = digest(
            FORMAT,
            b"deep" if is_deep else b"",
            given.digest.encode(),
            *(path.read_bytes() for path in files if path.is_file()),
        )
        self.is_deep = is_deep

    def key(self, of: Graded) -> str:
        return digest(self.common.encode(), of.record.encode())

    def kept(self, of: Graded) -> Mistake | None:
        try:
            return records.from_json(
                json.loads((self.folder / f"{self.key(of)}.json").read_bytes())
            )
        except (OSError, ValueError, KeyError, TypeError):
            return None

    def look(self, graded: Sequence[Graded], jobs: int | None, shows_progress: bool) -> None:
        """Looks for what is not kept yet."""
        self.folder.mkdir(parents=True, exist_ok=True)
        program.find("ratest_plus")
        left = {self.key(of): of for of in graded if self.is_asked(of) and not self.kept(of)}
        batches = [
            batch for batch in self.batches(left) if batch.how.product != POSTGRESQL or self.trial
        ]
        means = asking.Means(self.given.folder, self.guard, True, self.is_deep)
        running = parallel.Running()
        threads = ThreadPoolExecutor(jobs or parallel.cores())
        try:
            with tell.progress(len(left), shows_progress) as step:
                for done in as_completed(
                    [
                        threads.submit(
                            asking.ask,
                            replace(
                                means,
                                how=of.how,
                                trial=self.trial if of.how.product == POSTGRESQL else None,
                            ),
                            of.reference,
                            of.texts,
                            started=running.add,
                        )
                        for of in batches
                    ]
                ):
                    for key, found in done.result().items():
                        if found.fault not in TRIED_AGAIN:
                            write(
                                self.folder / f"{key}.json",
                                (json.dumps(records.to_json(found)) + "\n").encode("ascii"),
                            )
                        step()
        finally:
            threads.shutdown(wait=False, cancel_futures=True)
            running.stop()
            threads.shutdown()

    def how(self, of: Graded) -> Looked | None:
        """How the mistake of an answer is looked for; None where nothing differs, or another
        database decided than may be asked here."""
        found = looked.of_graded(of, self.given.settings)
        return found if found and found.product in ("", SQLITE, POSTGRESQL) else None

    def is_asked(self, of: Graded) -> bool:
        return self.how(of) is not None

    @cached_property
    def trial(self) -> Trial | None:
        """The connections of PostgreSQL; None where there are none, which is told."""
        try:
            found = tried.trial_of(self.given, tried.SECONDS)
        except Fault as fault:
            log.warning("mistakes are not looked for where PostgreSQL decides: %s", fault)
            return None
        if found.material.product != POSTGRESQL:
            log.warning(
                "mistakes are not looked for where PostgreSQL decides: exercise.toml has no engine"
                " and engine_asker"
            )
            return None
        return found

    def batches(self, left: Mapping[str, Graded]) -> Iterator[Batch]:
        """Some answers of one task each, in as many processes as there may be."""
        by_task: dict[tuple[str, str, Looked], dict[str, Graded]] = {}
        for key, of in left.items():
            how = self.how(of)
            if how:
                by_task.setdefault((of.task.name, of.task.source, how), {})[key] = of
        for (_, _, how), group in by_task.items():
            keys = list(group)
            size = min(IN_BATCH, max(1, len(left) // (2 * parallel.cores())))
            for start in range(0, len(keys), size):
                some = keys[start : start + size]
                yield Batch(
                    how,
                    text_of(group[some[0]].task.reference),
                    {key: text_of(group[key].answer.text.query) for key in some},
                )

    def of(self, graded: Sequence[Graded]) -> dict[str, Mistake]:
        """What is kept, by the keys of the answers' records."""
        found = {of.record: self.kept(of) for of in graded if self.is_asked(of)}
        return {key: mistake for key, mistake in found.items() if mistake}


def text_of(query: bytes) -> str:
    return asking.bare(query.decode("utf-8", "replace"))
