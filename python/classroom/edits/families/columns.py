"""Another column of the same kind, and the column of another table that has one of this name.

Students take the wrong side of a foreign key, a name of the wrong alias, or a column that only
looks alike. """
from __future__ import annotations

from collections.abc import Iterator

from sqlglot import exp

from classroom.edits.change import Change, Kind
from classroom.edits.query import Query
from classroom.sql.scopes import column, is_star, name_of
from classroom.sql.tree import COMPARISONS, Node, written


def changes(node: Node, query: Query) -> Iterator[Change]:
    for text, _ in others(node, query):
        yield changed(node, query, text)


def related(node: Node, query: Query) -> Iterator[Change]:
    """Those of `changes` that compare no two columns which nothing relates."""
    for text, place in others(node, query):
        if is_sensible(node, place, query):
            yield changed(node, query, text)


def of_other_tables(node: Node, query: Query) -> Iterator[Change]:
    """Any column at hand of the same kind, on a side of a comparison."""
    if (
        not isinstance(node, (exp.Column, exp.Literal))
        or is_star(node)
        or not isinstance(node.parent, COMPARISONS)
    ):
        return
    kind = query.scopes.kind(node)
    for scope in query.scopes.visible(node) if kind else []:
        for source, columns in scope.items():
            for name, of in columns.items():
                if source and of == kind and is_sensible(node, (source, name), query):
                    yield changed(
                        node, query, column(source, name), 3 if isinstance(node, exp.Column) else 4
                    )


Named = tuple[str, str]  # a source of FROM and its column


def others(node: Node, query: Query) -> Iterator[tuple[str, Named]]:
    """The columns that may be meant in the place of one, as texts and as names."""
    if not isinstance(node, exp.Column) or is_star(node):
        return
    table, columns = query.scopes.source_of(node)
    name, written_table = name_of(node.this), name_of(node.args.get("table"))
    kind = columns.get(name)
    visible = query.scopes.visible(node)
    for other, of in columns.items():
        if other != name and (of == kind or None in (of, kind)):
            is_ambiguous = any(
                sum(other in of_one for of_one in scope.values()) > 1
                for scope in visible
                if table in scope
            )
            yield column(written_table or (table if is_ambiguous else ""), other), (table, other)
    for scope in visible:
        for source, more in scope.items():
            if source and source != table and name in more:
                yield column(source, name), (source, name)


def is_sensible(node: Node, other: Named, query: Query) -> bool:
    """Whether a column can stand in the place of a node as far as it is compared with another
    column."""
    parent = node.parent
    if not isinstance(parent, COMPARISONS):
        return True
    beside = parent.expression if parent.this is node else parent.this
    if not isinstance(beside, exp.Column):
        return True
    scopes = query.scopes
    if other == (scopes.source_of(beside)[0], name_of(beside.this)):
        return False
    table = scopes.table_named(node, other[0])
    return query.vocabulary.are_related(
        (table, other[1]), (scopes.table_of(beside), name_of(beside.this))
    )


def changed(node: Node, query: Query, other: str, cost: int = 2) -> Change:
    return query.instead(node, f"{other} for {written(node)}", Kind.COLUMN, cost, other)
