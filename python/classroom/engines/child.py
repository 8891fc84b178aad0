"""Questions in processes of their own, which `classroom.process.forkserver` makes: each about a
material, a file of JSON.

The material is what `classroom.exercise.typed_rows` writes. A question, JSON too, has `reference`,
`answer`, `seconds`, `looks`, `duplicates`, `order`, `agrees`, and for PostgreSQL `engine` and
`asker`, the two connections. What comes back is a verdict, as `classroom.verdict.verdict` writes
it; with `run` what the answer alone returns, as `own_answer` writes it; or `{"fault": TEXT}` where
the engine can't be had. """
from __future__ import annotations

import contextlib
import importlib
import json
import math
import resource
import sys
from dataclasses import replace
from pathlib import Path
from typing import Any

if __name__ == "__main__" and not __package__:
    sys.path[0] = str(Path(__file__).resolve().parents[2])

from classroom.process import forkserver as forking
from classroom.base.errors import Fault, Missing
from classroom.exercise import typed_rows as materials
from classroom.verdict import verdict
from classroom.engines import other_dialects, own_answer
from classroom.engines.engine import REFERENCE, Engine, Refused, Stopped, TooMuch
from classroom.exercise.typed_rows import POSTGRESQL, SQLITE, Material
from classroom.exercise.part_masks import Parts
from classroom.engines.counterexample import Search
from classroom.engines.looks import RANDOM_PARTS, SHRINKINGS, Wanted
from classroom.verdict.verdict import Cause, Refusal, Verdict

# Of the processor beyond the time in which is tried: to begin, and to end a step.
MORE_SECONDS = 10.0
ENGINES = {
    SQLITE: ("classroom.engines.sqlite",),
    POSTGRESQL: ("classroom.engines.postgres", "psycopg"),
}
DEPTH = 20_000  # of calls, for trees of queries that are nested deep


def main() -> int:
    sys.setrecursionlimit(DEPTH)
    forking.serve(ready, answer)
    return 0


def ready(path: str) -> tuple[Material, Parts]:
    """A material with the parts of its rows, and its engine imported."""
    material = materials.from_json(json.loads(Path(path).read_bytes()))
    for name in ENGINES[material.product]:
        # What is not there is told by the question that needs it.
        with contextlib.suppress(ImportError):
            importlib.import_module(name)
    return material, Parts(material.pool)


def answer(of: tuple[Material, Parts], text: bytes) -> bytes:
    (material, parts), question = of, json.loads(text)
    most = math.ceil(float(question.get("seconds", 10.0)) + MORE_SECONDS)
    resource.setrlimit(resource.RLIMIT_CPU, (most, most + 1))
    try:
        if question.get("run"):
            found = own_answer.as_json(run(material, question, parts))
        else:
            found = verdict.to_json(tried(material, question, parts))
    except Fault as fault:
        found = {"fault": str(fault)}
    return json.dumps(found).encode("ascii")


def tried(material: Material, question: dict[str, Any], parts: Parts | None = None) -> Verdict:
    """The verdict of a question."""
    parts = parts or Parts(material.pool)
    label, engine = label_of(material), None
    try:
        try:
            engine = opened(material, parts, question)
            label = engine.label
            wanted = Wanted(
                float(question.get("seconds", 10.0)),
                bool(question.get("duplicates")),
                bool(question.get("order")),
                int(question.get("random_parts", RANDOM_PARTS)),
                int(question.get("shrinkings", SHRINKINGS)),
                bool(question.get("agrees")),
                int(question.get("looks", 0)),
            )
            search = Search(engine, parts, material, engine.queries, wanted)
            outcome = search.outcome()
            return Verdict(label, outcome, search.remarks(), search.doubts())
        except Stopped as stopped:
            return Verdict(stopped.engine or label, refusal_of(stopped, question, material))
    finally:
        if engine:
            engine.close()


def run(material: Material, question: dict[str, Any], parts: Parts | None = None) -> own_answer.Run:
    """What the answer returns over all rows; no reference is needed."""
    parts = parts or Parts(material.pool)
    alone = {**question, "reference": question["answer"]}
    label, engine = label_of(material), None
    try:
        engine = opened(material, parts, alone)
        label = engine.label
        return own_answer.own_answer(engine, parts)
    except Stopped as stopped:
        own = refusal_of(stopped, alone, material)
        return Verdict(stopped.engine or label, replace(own, is_reference=False))
    finally:
        if engine:
            engine.close()


def refusal_of(stopped: Stopped, question: dict[str, Any], material: Material) -> Refusal:
    """What ended a trial, as a value; what another dialect reads is no fault of the query."""
    is_reference = stopped.which == REFERENCE
    if isinstance(stopped, TooMuch):
        return Refusal(is_reference, Cause.LIMIT, stopped.message)
    if not isinstance(stopped, Refused):
        return Refusal(is_reference, Cause.BARRED, stopped.message)
    cause, dialect = stopped.cause, ""
    function = other_dialects.function_in(stopped.message)
    if cause == Cause.NAME and function:
        dialect = other_dialects.has_function(function)
    elif cause == Cause.SYNTAX and other_dialects.is_of_syntax(stopped.message):
        text = question["reference" if is_reference else "answer"]
        try:
            dialect = other_dialects.reader_of(text, material.product)
        except (Missing, RecursionError):
            cause = Cause.UNSUPPORTED  # nobody can tell
    return Refusal(
        is_reference,
        Cause.DIALECT if dialect else cause,
        stopped.message,
        stopped.place,
        dialect,
    )


def label_of(material: Material) -> str:
    if material.product == POSTGRESQL:
        return POSTGRESQL
    import sqlite3

    return f"sqlite {sqlite3.sqlite_version}"


def opened(material: Material, parts: Parts, question: dict[str, Any]) -> Engine:
    queries = question["reference"], question["answer"]
    if material.product == POSTGRESQL:
        from classroom.engines.postgres import Postgres

        return Postgres(material, parts, *queries, question["engine"], question["asker"])
    from classroom.engines.sqlite import Sqlite

    return Sqlite(material, parts, *queries)


if __name__ == "__main__":
    sys.exit(main())
