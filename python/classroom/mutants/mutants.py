"""All mutants of a query."""
from __future__ import annotations

from collections.abc import Sequence
from dataclasses import dataclass

from classroom.edits.families import MISTAKES, Family
from classroom.edits.query import Query
from classroom.sql.tree import parsed, written
from classroom.edits.vocabulary import of_tables
from classroom.sql.schema import Table


@dataclass(frozen=True)
class Mutant:
    """A wrong answer, in most cases, and the mistake that was made."""

    mistake: str
    text: str


def plain(query: str) -> str:
    """The query as it is written back without a mistake."""
    return written(parsed(query))


def mutants(
    query: str, tables: Sequence[Table], families: Sequence[Family] = MISTAKES
) -> list[Mutant]:
    """The mutants of a query over these tables, each text once: by their places in the query, and
    at one place by the families. A Fault where sqlglot doesn't read it."""
    whole = Query.plain(query, of_tables(tables))
    found: dict[str, Mutant] = {}
    for node in whole.nodes():
        for family in families:
            for change in family(node, whole):
                text = change.on(whole.text).strip()
                found.setdefault(text, Mutant(change.mistake, text))
    found.pop(whole.text, None)
    return list(found.values())
