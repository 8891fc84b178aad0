"""Which tables a query names."""
from __future__ import annotations

from collections.abc import Mapping, Sequence

import sqlglot
from sqlglot import exp

from classroom.exercise.typed_rows import Material
from classroom.sql.public_names import meant, without_public
from classroom.sql.tokens import Dialect, tokens
from classroom.sql.tree import UNREAD, Node, nodes

# By sqlglot's names.
READERS = {"sqlite": Dialect.SQLITE, "postgres": Dialect.POSTGRESQL}


def places(material: Material) -> dict[str, int]:
    """The numbers of the tables by their names in small letters."""
    return {name.lower(): at for at, name in enumerate(material.names())}


def in_one_schema(query: str, material: Material) -> str:
    """A query of PostgreSQL whose tables, views and types are in the schema of the trial."""
    made = tokens(material.before, Dialect.POSTGRESQL)
    words = [token.word for token in made]
    types = {
        meant(made[at + 2])
        for at in range(len(made) - 2)
        if words[at] == "create" and words[at + 1] in ("type", "domain")
    }
    return without_public(
        query, {*material.names(), *(view.name for view in material.views), *types}
    )


def with_views(queries: Sequence[str], material: Material) -> list[str]:
    """The queries, and those of the views that they name, by themselves or in views."""
    dialect = Dialect(material.product)
    made, left = list(queries), list(material.views)
    for text in made:
        for view in [one for one in left if mentions(text, {one.name.lower(): 0}, dialect)]:
            left.remove(view)
            made.append(view.query)
    return made


def named(text: str, numbers: Mapping[str, int], dialect: str) -> frozenset[int]:
    """The tables that a query names where tables can stand."""
    try:
        tree = sqlglot.parse_one(text, read=dialect)
        if tree is None:
            raise ValueError
        names = [name_of(table.this) for table in found(tree, exp.Table)]
        names += [
            name_of(node.args["field"]) for node in found(tree, exp.In) if node.args.get("field")
        ]
        return frozenset(numbers[name] for name in names if name in numbers)
    except UNREAD:
        return frozenset(mentions(text, numbers, READERS[dialect]))


def mentions(text: str, numbers: Mapping[str, int], dialect: Dialect) -> dict[int, int]:
    """How often the name of each table stands in a text, but for names before or behind a dot."""
    read = tokens(text, dialect)
    count: dict[int, int] = {}
    for at, token in enumerate(read):
        near = {read[at - 1].text if at else "", read[at + 1].text if at + 1 < len(read) else ""}
        if token.name.lower() in numbers and token.kind != "text" and "." not in near:
            table = numbers[token.name.lower()]
            count[table] = count.get(table, 0) + 1
    # One that stands beside a dot alone is mentioned all the same.
    for at, token in enumerate(read):
        if token.name.lower() in numbers and at and read[at - 1].text == ".":
            count.setdefault(numbers[token.name.lower()], 0)
    return count


def found(tree: Node, kind: type[Node]) -> list[Node]:
    """All nodes of a kind."""
    return [node for node in nodes(tree) if isinstance(node, kind)]


def name_of(node: Node | str | None) -> str:
    if isinstance(node, exp.Column):
        node = node.this
    return str(node.this if isinstance(node, exp.Identifier) else node or "").lower()
