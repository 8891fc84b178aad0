"""Two queries tried over the rows of one small schema."""
from __future__ import annotations

from collections.abc import Mapping, Sequence

from roles import Roles

from classroom.engines.child import tried
from classroom.exercise.rows import Cell, Held, Pool
from classroom.exercise.rules import rules_of
from classroom.exercise.typed_rows import POSTGRESQL, SQLITE, of_schema
from classroom.sql.schema import tables_of
from classroom.verdict.verdict import Verdict

Rows = Sequence[tuple[Cell, ...]]


def verdict(
    schema: str,
    rows: Mapping[str, Rows],
    reference: str,
    answer: str,
    roles: Roles | None = None,
    order: bool = False,
) -> Verdict:
    """In PostgreSQL where there are roles, else in SQLite."""
    held = []
    for table, rules in zip(tables_of(schema), rules_of(schema), strict=True):
        names = [column.name for column in table.columns]
        keys = [tuple(names.index(name) for name in rules.primary)] if rules.primary else []
        held.append(Held(table, list(rows[table.name]), keys, []))
    made = of_schema(Pool(schema.encode(), held), POSTGRESQL if roles else SQLITE)
    question = {"reference": reference, "answer": answer, "order": order}
    if roles:
        question |= {"engine": roles.loader, "asker": roles.asker}
    return tried(made, question)
