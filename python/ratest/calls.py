"""The questions that can be asked."""
from __future__ import annotations

import os
from collections.abc import Mapping, Sequence
from dataclasses import dataclass
from typing import Union

from ratest import child, library, printed, schema
from ratest.answers import (
    Agree,
    Answer,
    Certificate,
    Grade,
    Never,
    Reason,
    Refused,
    Rejected,
    Undecided,
    Valid,
    undecided_of,
    witness_of,
)
from ratest.child import Limits
from ratest.library import Said
from ratest.places import place_of
from ratest.tables import MOST_BYTES, Source, csv_files

# A text of SQL, or the path of a file with one.
Text = Union[str, "os.PathLike[str]"]

SCHEMA, DATA, FIRST, SECOND, LIST, CERTIFICATE = (
    "schema",
    "data",
    "query1",
    "query2",
    "list",
    "certificate",
)
MOST_CONFLICTS, MOST_WORK, MOST_PATHS = 10_000_000, 32_000_000, 256


@dataclass(frozen=True)
class Question:
    """A schema, its rows and further texts, as files by their names."""

    tables: tuple[schema.Table, ...]
    files: dict[str, bytes]

    def text(self, part: str) -> str:
        """The text of a part that a refusal names; empty where it names none."""
        name = {"schema": SCHEMA, "query 1": FIRST, "query 2": SECOND}.get(part, "")
        return self.files.get(name, b"").decode("utf-8", "replace")


def explain(
    schema: Text,
    tables: Source,
    query1: Text,
    query2: Text,
    conflicts: int | None = None,
    work: int | None = None,
    limits: Limits | None = None,
) -> Answer:
    """The fewest rows on which the queries answer differently, or that they agree.

    A schema or a query is a text, or a path. `tables` maps names to lists of rows, paths of CSV
    files or pandas DataFrames, or is an sqlite3 connection. `conflicts` is a budget of the search,
    `work` the limit of intermediate results. With `limits` the call is made in a child process."""
    asked = question(schema, tables, {FIRST: query1, SECOND: query2})
    words = [SCHEMA, DATA, FIRST, SECOND, *options(conflicts, work)]
    answer = answer_of(asked, said(words, asked.files, limits))
    assert not isinstance(answer, Never)
    return answer


def why(
    schema: Text,
    tables: Source,
    query1: Text,
    query2: Text,
    row: Sequence[printed.Value],
    conflicts: int | None = None,
    work: int | None = None,
    limits: Limits | None = None,
) -> Reason:
    """The fewest rows on which the first query answers with this row and the second doesn't, or
    `Never`."""
    asked = question(schema, tables, {FIRST: query1, SECOND: query2})
    words = ["row", row_text(row), SCHEMA, DATA, FIRST, SECOND, *options(conflicts, work)]
    answer = answer_of(asked, said(words, asked.files, limits))
    assert not isinstance(answer, Agree)
    return answer


def grade(
    schema: Text,
    tables: Source,
    reference: Text,
    answers: Mapping[str, Text],
    conflicts: int | None = None,
    work: int | None = None,
    limits: Limits | None = None,
) -> dict[str, Grade] | Refused:
    """The grade of each answer; `Refused` where the schema, a table or the reference is."""
    names, found = list(answers), {}
    for at in range(0, len(names), MOST_PATHS):
        group = names[at : at + MOST_PATHS]
        # Names of our own, since those that are given may hold anything.
        paths = [str(number) for number in range(1, len(group) + 1)]
        texts = {
            FIRST: reference,
            LIST: "\n".join(paths),
            **{path: answers[name] for path, name in zip(paths, group)},
        }
        asked = question(schema, tables, texts)
        told = said(
            ["grade", SCHEMA, DATA, FIRST, LIST, *options(conflicts, work)], asked.files, limits
        )
        if told.status != printed.FINE:
            return refused_of(asked, told)
        grades = printed.grades_of(told.out, paths)
        found.update({name: Grade(of.kind, of.rows, of.fault) for name, of in zip(group, grades)})
    return found


def prove(
    schema: Text,
    tables: Source,
    query1: Text,
    query2: Text,
    conflicts: int | None = None,
    work: int | None = None,
    limits: Limits | None = None,
) -> Certificate | Refused | Undecided:
    """A certificate of the verdict on the queries, which `check` checks."""
    asked = question(schema, tables, {FIRST: query1, SECOND: query2})
    told = said(
        ["prove", SCHEMA, DATA, FIRST, SECOND, *options(conflicts, work)], asked.files, limits
    )
    if told.status == printed.FINE:
        return Certificate(told.out)
    if told.status != printed.SPENT:
        return refused_of(asked, told)
    answer = answer_of(asked, told)
    assert isinstance(answer, Undecided)
    return answer


def check(
    certificate: Certificate,
    schema: Text,
    tables: Source,
    query1: Text,
    query2: Text,
    work: int | None = None,
    limits: Limits | None = None,
) -> Valid | Rejected | Refused:
    """Whether the certificate shows a verdict on these queries over this schema and these rows."""
    asked = question(schema, tables, {FIRST: query1, SECOND: query2, CERTIFICATE: certificate.text})
    told = said(
        ["check", CERTIFICATE, SCHEMA, DATA, FIRST, SECOND, *options(None, work)],
        asked.files,
        limits,
    )
    if told.status == printed.FINE:
        return Valid(printed.valid_of(told.out))
    if told.err.startswith("ratest: certificate: "):
        return Rejected(printed.rejected_of(told.err))
    return refused_of(asked, told)


# ---- what is asked


def question(given: Text, tables: Source, texts: Mapping[str, Text]) -> Question:
    files = {SCHEMA: content(given), **{name: content(text) for name, text in texts.items()}}
    try:
        known = schema.tables_of(files[SCHEMA].decode("utf-8", "replace"))
    except schema.NoSchema:
        known = ()  # which `ratest` says better
    files.update({f"{DATA}/{name}.csv": text for name, text in csv_files(tables, known).items()})
    return Question(known, files)


def content(text: Text) -> bytes:
    if isinstance(text, str):
        return text.encode("utf-8", "surrogateescape")
    with open(text, "rb") as file:
        return file.read(MOST_BYTES)


def options(conflicts: int | None, work: int | None) -> list[str]:
    words = []
    for name, number, most in (("conflicts", conflicts, MOST_CONFLICTS), ("work", work, MOST_WORK)):
        if number is not None:
            if not 1 <= number <= most:
                raise ValueError(f"{name} is from 1 to {most}")
            words.append(f"--{name}={number}")
    return words


def row_text(row: Sequence[printed.Value]) -> str:
    return ", ".join(map(schema.literal, row))


def said(words: Sequence[str], files: Mapping[str, bytes], limits: Limits | None) -> Said:
    """What a command says of these files, in this process or in a child."""
    if limits is None:
        told = library.ask(words, files)
    else:
        told = library.read(child.answered(library.framed(words, files), library.path(), limits))
    if told.status == printed.OUT_OF_MEMORY:
        raise MemoryError("out of memory")
    return told


# ---- what is answered


def answer_of(asked: Question, told: Said) -> Answer | Never:
    if told.status in (printed.REFUSED, printed.LIMIT):
        return refused_of(asked, told)
    outcome = printed.outcome_of(*told, asked.tables)
    if isinstance(outcome, printed.Witness):
        return witness_of(outcome, told.out, asked.tables)
    if isinstance(outcome, printed.Undecided):
        return undecided_of(outcome, told.out, asked.tables)
    return Agree() if isinstance(outcome, printed.Agree) else Never()


def refused_of(asked: Question, told: Said) -> Refused:
    outcome = printed.outcome_of(*told, asked.tables)
    if isinstance(outcome, printed.Limit):
        return Refused("limit", outcome.fault, None, None)
    if not isinstance(outcome, printed.Refused):
        raise printed.Unreadable(told.err)
    if outcome.place is None:
        return Refused(outcome.part, outcome.fault, None, None)
    place = place_of(asked.text(outcome.part), outcome.place)
    return Refused(outcome.part, outcome.fault, place.line, place.column)
