"""A table exchanged for another, a table too many, and a table missing.

Students take a table that has a column of the same name, join one more than the question needs,
which drops rows without a partner, or leave out the one that links two others. """
from __future__ import annotations

import itertools
from collections.abc import Iterator

from sqlglot import exp

from classroom.edits.block import Block, block_of
from classroom.edits.change import Change, Kind
from classroom.edits.query import Query, table_in
from classroom.sql.scopes import column, is_star, name_in_from, name_of
from classroom.sql.tree import Node
from classroom.sql.schema import spelled

MOST_WAYS = 12  # to add one table


def changes(node: Node, query: Query) -> Iterator[Change]:
    if isinstance(node, exp.Table) and isinstance(node.parent, (exp.From, exp.Join)):
        yield from of_one_kind(node, query)
    block = block_of(node, query)
    if block and not block.has_star:
        yield from linked(block)
        if block.is_plain:
            yield from too_many(block)
            yield from missing(block)


def of_one_kind(node: Node, query: Query) -> Iterator[Change]:
    """Another table under the same name; where it lacks a column that is used, the query is
    refused."""
    used = used_columns(node, query)
    for table, columns in query.vocabulary.tables.items():
        if table != name_of(node.this) and used <= set(columns):
            text = f"{spelled(table)} AS {spelled(name_in_from(node))}"
            yield query.instead(node, f"{table} for {name_of(node.this)}", Kind.TABLE, 3, text)


def used_columns(source: Node, query: Query) -> set[str]:
    select = source.parent_select
    name = name_in_from(source)
    found = [one for one in (select.find_all(exp.Column) if select else []) if not is_star(one)]
    return {name_of(one.this) for one in found if query.scopes.source_of(one)[0] == name}


def linked(block: Block) -> Iterator[Change]:
    """A table exchanged for one that a foreign key links, where all of its columns in use have
    another there."""
    query, words = block.query, block.query.vocabulary
    for member in block.sources:
        table, name = table_in(member), name_in_from(member)
        if not table:
            continue
        used = [
            one
            for one in block.select.find_all(exp.Column)
            if not is_star(one) and query.scopes.source_of(one)[0] == name
        ]
        own = {name_of(one.this) for one in used}
        for other, columns in words.tables.items():
            ways = [
                [to for to in columns if words.are_linked((table, one), (other, to))]
                for one in sorted(own)
            ]
            if other == table or not own or not all(ways) or own <= set(columns):
                continue
            for way in itertools.islice(itertools.product(*ways), MOST_WAYS):
                names = dict(zip(sorted(own), way))
                pieces = [
                    (*query.span(one), column(name, names[name_of(one.this)])) for one in used
                ]
                pieces.append((*query.span(member), f"{spelled(other)} AS {spelled(name)}"))
                yield query.instead(
                    block.select,
                    f"{other} for {table}",
                    Kind.TABLE,
                    4,
                    query.source(block.select, pieces),
                    place=query.span(member),
                )


def too_many(block: Block) -> Iterator[Change]:
    """A table dropped with the conditions that name it."""
    shown = block.shown_names()
    for member in block.sources:
        name = name_in_from(member)
        others = [other for other in block.sources if other is not member]
        if not others or name in shown:
            continue
        kept = [
            block.qualified(one) for one in block.all_conditions if not block.mentions(one, name)
        ]
        yield block.query.instead(
            block.select,
            f"{name} dropped from FROM",
            Kind.TABLE_TOO_MANY,
            4,
            block.written(", ".join(block.query.source(other) for other in others), kept),
            place=block.query.span(member),
        )


def missing(block: Block) -> Iterator[Change]:
    """A table joined by a foreign key, or one that links tables here by all of its foreign keys."""
    words = block.query.vocabulary
    own = [(name_in_from(source), table_in(source)) for source in block.sources]
    own = [one for one in own if one[1]]
    for table, columns in words.tables.items():
        alias = fresh(block, table)
        per_column = []
        for name in [name for name in columns if (table, name) in words.classes]:
            links = [
                f"{column(source, to)} = {column(alias, name)}"
                for source, of in own
                for to in words.tables.get(of, {})
                if words.are_linked((of, to), (table, name))
            ]
            if links:
                per_column.append(links)
        ways = [[link] for links in per_column for link in links]
        costs = [6] * len(ways)
        if len(per_column) > 1:
            both = [
                list(way) for way in itertools.islice(itertools.product(*per_column), MOST_WAYS)
            ]
            ways, costs = ways + both, costs + [5] * len(both)
        for way, cost in zip(ways, costs):
            yield adding(block, table, alias, way, cost)


def adding(block: Block, table: str, alias: str, links: list[str], cost: int) -> Change:
    text = f"{spelled(table)} AS {spelled(alias)}" if alias != table else spelled(table)
    conditions = [*map(block.qualified, block.conditions), *links]
    return block.query.instead(
        block.select,
        f"{table} joined by {' AND '.join(links)}",
        Kind.TABLE_MISSING,
        cost,
        block.written(f"{block.from_text()}, {text}", conditions),
        place=block.begin_text(),
    )


def fresh(block: Block, table: str) -> str:
    """A name for a table that nothing at hand has."""
    taken = {name for scope in block.query.scopes.visible(block.select) for name in scope} | set(
        block.names()
    )
    taken |= {name_in_from(one) for one in block.query.tree.find_all(exp.Table)}
    if table not in taken:
        return table
    return next(
        name
        for name in (f"{table[0].lower()}{number}" for number in itertools.count(2))
        if name not in taken
    )
