"""Which columns of a table a witness shows: those of schema.sql, and others where a query names
them."""
from __future__ import annotations

from collections.abc import Collection, Iterator, Sequence
from dataclasses import replace

from classroom.exercise.importing.from_sqlite import written
from classroom.exercise.same_rows import items_of
from classroom.exercise.typed_rows import SQLITE, Material
from classroom.sql.schema import Table
from classroom.sql.tokens import Dialect, Token, tokens

# Before a star that stands for all columns, which `count(*)` and a product have not.
BEFORE_STAR = frozenset(("select", "distinct", "all", ",", "."))


def with_hidden(whole: Material, tables: Sequence[Table]) -> Material:
    """The material that knows which of its columns schema.sql has not."""
    ours = {table.name: {column.name for column in table.columns} for table in tables}
    return replace(
        whole,
        hidden=tuple(
            tuple(
                column.name
                for column in of.table.columns
                if of.table.name in ours and written(column.name) not in ours[of.table.name]
            )
            for of in whole.pool.held
        ),
    )


def hidden_of(whole: Material, queries: Sequence[str]) -> tuple[frozenset[str], ...]:
    """By the tables' numbers the columns that neither schema.sql nor these queries have; none where
    a query asks for all columns, or joins by what columns are called."""
    if not any(whole.hidden):
        return (frozenset(),) * len(whole.pool.held)
    dialect = Dialect.SQLITE if whole.product == SQLITE else Dialect.POSTGRESQL
    read = [tokens(query, dialect) for query in queries]
    names = set(names_in(read))
    if any(view.name.casefold() in names for view in whole.views):
        read += [tokens(view.query, dialect) for view in whole.views]
        names |= set(names_in(read))
    if any(map(takes_all, read)):
        return (frozenset(),) * len(whole.pool.held)
    return tuple(
        frozenset(name for name in hidden if name.casefold() not in names)
        for hidden in whole.hidden
    )


def names_in(texts: Sequence[Sequence[Token]]) -> Iterator[str]:
    for read in texts:
        yield from (token.name.casefold() for token in read if token.kind != "text")


def takes_all(read: Sequence[Token]) -> bool:
    return any(
        token.word in ("natural", "table")
        or token.text == "*"
        and at > 0
        and read[at - 1].word in BEFORE_STAR
        for at, token in enumerate(read)
    )


def statement_without(whole: Material, at: int, hidden: Collection[str]) -> str:
    """What makes the table of this number without these columns, their keys and their CHECKs."""
    statement = whole.statements[at]
    if not hidden:
        return statement
    dialect = Dialect.SQLITE if whole.product == SQLITE else Dialect.POSTGRESQL
    folded = {name.casefold() for name in hidden}

    def is_of(part: Sequence[Token]) -> bool:
        return not folded.isdisjoint(names_in([part]))

    made, *others = statement.split(";\n")
    read = tokens(made, dialect)
    columns = {column.name for column in whole.pool.held[at].table.columns} - set(hidden)
    kept, items, is_keyed = list[str](), list(items_of(read)), True
    for item in items:
        if not is_of(item):
            kept.append(made[item[0].begin : item[-1].end])
            continue
        is_keyed &= "primary" not in (token.word for token in item)
        if item[0].name in columns:
            kept.append(" ".join(token.text for token in item[:2]))
    begin = next(token.end for token in read if token.text == "(")
    # What stands behind the columns may need a key, as WITHOUT ROWID does.
    end = made[items[-1][-1].end :] if is_keyed else ")"
    rest = [other for other in others if not is_of(tokens(other, dialect))]
    return ";\n".join([f"{made[:begin]}{', '.join(kept)}{end}", *rest])
