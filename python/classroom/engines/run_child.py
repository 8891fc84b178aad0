"""Asks one question of a child process within limits."""
from __future__ import annotations

import json
import os
import signal
import sys
import tempfile
from collections.abc import Callable, Iterator, Mapping, Sequence
from concurrent.futures import ThreadPoolExecutor
from contextlib import closing, contextmanager
from dataclasses import dataclass
from pathlib import Path
from typing import Any, TypeVar

from classroom.process import pool as parallel
from classroom.base.errors import Fault, shown
from classroom.process.forkserver import Ended, Forks
from classroom.process.limits import Limits
from classroom.engines import own_answer
from classroom.engines.own_answer import Run
from classroom.exercise import typed_rows as materials
from classroom.verdict import verdict
from classroom.exercise.typed_rows import Material
from classroom.verdict.verdict import Cause, Refusal, Verdict

Found = TypeVar("Found")
CHILD = Path(__file__).with_name("child.py")
# What a process may take by the clock, so that a busy machine changes no verdict: that of its
# processor is bounded by the process itself.
TIMES, MORE_SECONDS = 4.0, 60.0
MEGABYTES, OUTPUT = 1500, 16.0


@dataclass(frozen=True)
class Options:
    """How an exercise is tried; of PostgreSQL also the connections of the loader and of the
    asker."""

    seconds: float = 10.0
    counts_duplicates: bool = False
    counts_order: bool = False
    engine: str = ""
    asker: str = ""
    looks: int = 0  # at parts, that stand for the seconds, so that each run finds the same; 0: the clock counts


class Failed(Fault):
    """The process of one question failed; those of others may not."""

    def __init__(self, how: str, *last: str) -> None:
        """With its last words, which may have texts of the queries."""
        super().__init__(": ".join([how, *map(shown, last)]))
        self.how = how


def forks(seconds: float, folder: Path, around: Sequence[str] = ()) -> Forks:
    """What makes the processes of questions that have so many seconds; `around` are the words
    before those of the process that makes them."""
    return Forks(
        [*around, sys.executable, "-I", os.fspath(CHILD)],
        os.fspath(folder),
        Limits(TIMES * seconds + MORE_SECONDS, MEGABYTES, OUTPUT),
    )


class Trier:
    """Tries answers over one material, from any number of threads."""

    def __init__(
        self, material: Material, folder: Path, options: Options, processes: Forks
    ) -> None:
        """The folder is for the material, and stays as long as this is used."""
        self.product = material.product
        self.options, self.processes = options, processes
        self.material = folder / "material.json"
        self.material.write_text(json.dumps(materials.to_json(material)))

    def ask(self, reference: str, answer: str, agrees: bool = False) -> Verdict:
        """The verdict of one question; a Fault where the engine can't be had, Failed where its
        process ended without a verdict. Of two queries that are known to agree as sets only
        duplicates and order are looked at."""
        question = {
            "reference": reference,
            "answer": answer,
            "looks": self.options.looks,
            "duplicates": self.options.counts_duplicates,
            "order": self.options.counts_order,
            "agrees": agrees,
        }
        found = self._asked(question, verdict.from_json)
        if isinstance(found, Verdict):
            return found
        return Verdict(self.product, found)

    def run(self, query: str) -> Run:
        """What one query returns over all rows, or a verdict that it is refused; faults as of
        `ask`."""
        found = self._asked({"answer": query, "run": True}, own_answer.read)
        return Verdict(self.product, found) if isinstance(found, Refusal) else found

    def _asked(
        self, question: Mapping[str, object], read: Callable[[dict[str, Any]], Found]
    ) -> Found | Refusal:
        """What came back, or the limit that the process passed."""
        whole = {
            **question,
            "seconds": self.options.seconds,
            "engine": self.options.engine,
            "asker": self.options.asker,
        }
        try:
            ran = self.processes.ask(
                os.fspath(self.material.absolute()), json.dumps(whole).encode("ascii")
            )
        except (Ended, OSError) as fault:
            raise Failed("its process could not be begun", str(fault)) from None
        if ran.passed or ran.status == -signal.SIGXCPU:
            return Refusal(False, Cause.LIMIT, ran.passed or "time")
        try:
            told = json.loads(ran.stdout)
            if "fault" in told:
                raise Fault(str(told["fault"]))
            return read(told)
        except (ValueError, KeyError, TypeError):
            last = [ran.stderr.decode("utf-8", "replace")] if ran.stderr else []
            why = f"signal {-ran.status}" if ran.status < 0 else f"status {ran.status}"
            raise Failed(f"its process ended with {why}", *last) from None

    def close(self) -> None:
        """Ends all questions at once."""
        self.processes.close()


@contextmanager
def trier(material: Material, options: Options = Options()) -> Iterator[Trier]:
    """A Trier with a folder and processes of its own."""
    with tempfile.TemporaryDirectory(prefix="trial-") as name:
        with closing(
            Trier(material, Path(name), options, forks(options.seconds, Path(name)))
        ) as made:
            yield made


@contextmanager
def threads(of: Trier, jobs: int | None) -> Iterator[ThreadPoolExecutor]:
    """So many threads that ask; at the end, however it comes, what they still ask ends at once."""
    made = ThreadPoolExecutor(jobs or parallel.cores())
    try:
        yield made
    finally:
        made.shutdown(wait=False, cancel_futures=True)
        of.close()
        made.shutdown()
