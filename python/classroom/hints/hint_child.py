"""Looks for the mistakes of some answers to one task, in a process of its own: `child.py QUESTION
FOLDER`.

QUESTION is a file of JSON: `exercise`, a folder with the schema and the rows; `guard`, a folder
with other rows of the schema, or null; `program`, the path of `ratest_plus`; `reference`;
`answers`, texts by their keys; `classes`, whether they are looked for; `tried`, whether nothing is
proved, since a database decided; `kind`, as what rows are compared then; `material`, `engine` and
`asker` where that is PostgreSQL, as `classroom.engines.child` gets them, else null; `deep`, for how
many seconds two changes are looked for. FOLDER is an empty one for what is needed meanwhile. For
each answer a line of JSON is printed: `[KEY, MISTAKE]`, as `classroom.hints.mistake` writes it.
"""
from __future__ import annotations

import contextlib
import json
import os
import sys
from dataclasses import replace
from pathlib import Path
from typing import Any

if __name__ == "__main__" and not __package__:
    sys.path[0] = str(Path(__file__).resolve().parents[2])

from classroom.base.errors import Fault
from classroom.exercise import sources
from classroom.hints import pairs as deep
from classroom.hints import recording
from classroom.hints import mistake as records
from classroom.hints.mistake import Mistake
from classroom.hints.repairs import Ground, Search
from classroom.exercise import typed_rows as material

DEPTH = 20_000  # of calls, for trees of queries that are nested deep


def main(words: list[str]) -> int:
    sys.setrecursionlimit(DEPTH)
    question: dict[str, Any] = json.loads(Path(words[0]).read_bytes())
    os.environ["RATEST_PLUS"] = question["program"]
    with contextlib.ExitStack() as stack:
        answered(question, Path(words[1]), stack)
    return 0


def answered(question: dict[str, Any], work: Path, stack: contextlib.ExitStack) -> None:
    """Prints what is found for each answer."""
    ground: Ground | None = None
    search: Search | None = None
    for key, answer in question["answers"].items():
        try:
            ground = ground or ground_of(question, work, stack)
            search = search or Search(ground, question["reference"], question["tried"])
            found = mistake(search, answer, question)
        except Fault as fault:
            found = Mistake(fault=str(fault))
        except RecursionError:
            found = Mistake(fault="the query is nested too deep")
        sys.stdout.write(json.dumps([key, records.to_json(found)]) + "\n")
        sys.stdout.flush()


def ground_of(question: dict[str, Any], work: Path, stack: contextlib.ExitStack) -> Ground:
    rows = sources.of_exercise(Path(question["exercise"]))
    guard = sources.of_exercise(Path(question["guard"])) if question["guard"] else None
    if not question["material"]:
        return Ground(rows, guard, work, kind=question["kind"])
    from classroom.engines.postgres_sample import Tables

    of = material.from_json(question["material"])
    tables = stack.enter_context(
        contextlib.closing(Tables(of, question["engine"], question["asker"]))
    )
    # The schema of the CSV files says what columns mean, the database what types they have.
    pool = replace(of.pool, schema=rows.schema)
    pool.lawful &= of.pool.lawful
    return Ground(
        pool, guard, work, kind=question["kind"], holds=tables.holding, engine=tables.label
    )


def mistake(search: Search, answer: str, question: dict[str, Any]) -> Mistake:
    repairs = search.repairs(answer)
    classes = search.classes(answer) if question["classes"] else None
    pair = (
        deep.pair(search, answer, question["deep"])
        if question["deep"] and not repairs.edits and not search.is_tried
        else ()
    )
    return recording.of_found(repairs, classes, pair)


if __name__ == "__main__":
    sys.exit(main(sys.argv[1:]))
