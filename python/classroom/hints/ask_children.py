"""Asks child processes for mistakes, within limits of time and memory."""
from __future__ import annotations

import json
import os
import subprocess
import sys
import tempfile
from collections.abc import Callable, Mapping, Sequence
from dataclasses import dataclass
from pathlib import Path

from classroom.process import limits as limited
from classroom.engines import ratest as program
from classroom.process.limits import Limits
from classroom.hints import mistake as records
from classroom.hints.target import Looked
from classroom.hints.mistake import Mistake
from classroom.exercise import typed_rows as material
from classroom.grading.trials import Trial

CHILD = Path(__file__).with_name("hint_child.py")
MEGABYTES, OUTPUT = 1500, 64.0
BEGIN, EACH = 20.0, 20.0  # seconds for a process, and for an answer
SECONDS_DEEP = 25.0
LATE, FAILED = "it took too long", "the search failed"


@dataclass(frozen=True)
class Means:
    """What a question needs beside its texts."""

    exercise: Path  # a folder with the schema and the rows
    guard: Path | None
    classes: bool = True
    deep: bool = False
    how: Looked = Looked()
    trial: Trial | None = None  # where PostgreSQL decides


def ask(
    means: Means,
    reference: str,
    answers: Mapping[str, str],
    seconds: float | None = None,
    python: Sequence[str] = (sys.executable,),
    started: Callable[[subprocess.Popen[bytes]], None] = lambda process: None,
) -> dict[str, Mistake]:
    """What is found for the answers, by their keys; of one that took too long, that. `python` are
    the words that call an interpreter. `started` gets the process."""
    most = seconds or BEGIN + len(answers) * (EACH + SECONDS_DEEP * means.deep)
    with tempfile.TemporaryDirectory(prefix="repair-") as name:
        work = Path(name) / "work"
        work.mkdir()
        question = Path(name) / "question.json"
        question.write_text(
            json.dumps(
                {
                    "exercise": os.fspath(means.exercise.absolute()),
                    "guard": os.fspath(means.guard.absolute()) if means.guard else None,
                    "program": os.fspath(program.find("ratest_plus")),
                    "reference": reference,
                    "answers": dict(answers),
                    "classes": means.classes,
                    "tried": bool(means.how.engine),
                    "kind": means.how.kind,
                    "material": material.to_json(means.trial.material) if means.trial else None,
                    "engine": means.trial.options.engine if means.trial else "",
                    "asker": means.trial.options.asker if means.trial else "",
                    "deep": SECONDS_DEEP if means.deep else 0,
                }
            )
        )
        ran = limited.run(
            [*python, "-I", os.fspath(CHILD), os.fspath(question), os.fspath(work)],
            Limits(most, MEGABYTES, OUTPUT),
            name,
            started,
        )
    found = {}
    for line in ran.stdout.decode("utf-8", "replace").splitlines():
        try:
            key, read = json.loads(line)
            found[str(key)] = records.from_json(read)
        except (ValueError, KeyError, TypeError):
            continue
    failed = Mistake(fault=LATE if ran.passed else FAILED)
    return {key: found.get(key, failed) for key in answers}


def bare(text: str) -> str:
    """A query as it is looked at: without what stands around it, and the sign at its end."""
    return text[begins(text) :].rstrip().removesuffix(";")


def begins(text: str) -> int:
    """Where it begins: behind a mark of byte order and white space."""
    return len(text) - len(text.lstrip("\ufeff \t\r\n\f"))
