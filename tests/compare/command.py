"""Runs a comparison on many seeds, on all processors, with progress on a terminal."""
from __future__ import annotations

import argparse
import os
import signal
import sys
import time
import traceback
from collections import Counter
from dataclasses import dataclass
from multiprocessing import Pool
from random import Random
from typing import Callable, Optional, Protocol

from .change import reduced
from .draw import Draw, Limits
from .model import Case, csv_text, schema
from .program import Passed, limit_memory, missing, query_text


class Comparison(Protocol):
    """What is compared: how large the cases are, and how the programs differ on one (None: not at
    all)."""

    @property
    def name(self) -> str:
        ...

    @property
    def limits(self) -> Limits:
        ...

    def difference(self, case: Case) -> Optional[str]:
        ...


@dataclass(frozen=True)
class Found:
    seed: int
    # "same", "differs", or why the case was left out.
    outcome: str
    text: str = ""


def case_of(seed: int, limits: Limits) -> Case:
    return Draw(Random(seed), limits).case()


def shown(case: Case) -> str:
    tables = "".join(
        f"-- {table.name}.csv\n{csv_text(table, case.rows[table.name])}" for table in case.tables
    )
    return (
        f"{schema(case, 'ratest')}{tables}-- query 1\n{query_text(case.first)}-- query"
        f" 2\n{query_text(case.second)}"
    )


def tried(difference: Callable[[Case], Optional[str]], case: Case) -> Optional[str]:
    """The difference; an error of the other program is one too, since it stands for a wrong
    case."""
    try:
        return difference(case)
    except Passed:
        raise
    except Exception:
        return traceback.format_exc(limit=-3)


def fails(difference: Callable[[Case], Optional[str]], case: Case) -> bool:
    try:
        told = tried(difference, case)
    except Passed:
        return False
    return told is not None and "Traceback" not in told


def compared(comparison: Comparison, seed: int) -> Found:
    case = case_of(seed, comparison.limits)
    try:
        told = tried(comparison.difference, case)
    except Passed as why:
        return Found(seed, str(why))
    if told is None:
        return Found(seed, "same")
    smallest = reduced(case, lambda other: fails(comparison.difference, other))
    return Found(seed, "differs", f"{shown(smallest)}{tried(comparison.difference, smallest)}")


def progress(name: str, done: int, count: int, start: float) -> None:
    if sys.stderr.isatty():
        left = (time.monotonic() - start) / done * (count - done)
        print(
            f"\r{name}: {done} of {count}, {left:.0f} seconds left ",
            end="",
            file=sys.stderr,
            flush=True,
        )


@dataclass(frozen=True)
class Task:
    comparison: Comparison

    def __call__(self, seed: int) -> Found:
        return compared(self.comparison, seed)


def begin_worker() -> None:
    signal.signal(signal.SIGINT, signal.SIG_IGN)
    limit_memory()


def run(comparison: Comparison, first: int, count: int, jobs: int) -> Counter[str]:
    """How many cases had which outcome. Each difference is printed with its seed."""
    outcomes: Counter[str] = Counter()
    start = time.monotonic()
    with Pool(jobs, begin_worker) as pool:
        for found in pool.imap_unordered(
            Task(comparison), range(first, first + count), chunksize=8
        ):
            outcomes[found.outcome] += 1
            if found.text:
                print(f"\n{comparison.name}: seed {found.seed}\n{found.text}", flush=True)
            progress(comparison.name, sum(outcomes.values()), count, start)
    return outcomes


def main(comparison: Comparison, about: str) -> int:
    parser = argparse.ArgumentParser(prog=comparison.name, description=about)
    parser.add_argument("--count", type=int, default=1000, help="how many cases (1000)")
    parser.add_argument(
        "--from", type=int, default=0, dest="first", help="the seed of the first case (0)"
    )
    parser.add_argument(
        "--jobs", type=int, default=os.cpu_count() or 1, help="how many at a time (all processors)"
    )
    words = parser.parse_args()
    lack = missing()
    if lack:
        print(f"{comparison.name}: {lack}", file=sys.stderr)
        return 2
    start = time.monotonic()
    try:
        outcomes = run(comparison, words.first, words.count, words.jobs)
    except KeyboardInterrupt:
        print(f"\n{comparison.name}: stopped", file=sys.stderr)
        return 130
    counts = ", ".join(f"{count} {outcome}" for outcome, count in sorted(outcomes.items()))
    print(
        f"{comparison.name}: {words.count} cases from seed {words.first} in"
        f" {time.monotonic() - start:.0f} seconds: {counts}"
    )
    return 1 if outcomes["differs"] else 0
