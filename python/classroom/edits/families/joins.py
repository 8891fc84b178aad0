"""A join condition dropped, JOIN for a semijoin by EXISTS or IN, a semijoin for a JOIN, EXISTS for
IN.

Students leave out how two tables belong together, and take a pair of rows for "there is none":
where a semijoin is negated, the JOIN takes the rows for which its condition is false, "some row is
not" for "no row is". """
from __future__ import annotations

from collections.abc import Iterator

from sqlglot import exp

from classroom.edits.block import Block, block_of
from classroom.edits.change import Change, Kind
from classroom.edits.query import Query
from classroom.sql.scopes import is_star, name_in_from
from classroom.sql.tree import Node, bare


def changes(node: Node, query: Query) -> Iterator[Change]:
    if isinstance(node, exp.Join) and node.args.get("on"):
        yield query.instead(
            node,
            "the condition of JOIN dropped",
            Kind.CONDITION_TOO_MANY,
            3,
            f"CROSS JOIN {query.source(node.this)}",
        )
    block = block_of(node, query)
    if block:
        yield from joined(block)
        yield from semijoined(block)


def joined(block: Block) -> Iterator[Change]:
    """JOIN for each semijoin that is a conjunct of WHERE."""
    query = block.query
    for at, condition in enumerate(block.conditions):
        is_negated = isinstance(condition, exp.Not)
        test = bare(condition.this) if is_negated else condition
        inner = semijoin_of(test, query)
        if inner is None or set(block.names()) & set(inner.names()):
            continue
        conditions = conditions_of(test, inner)
        if conditions is None:
            continue
        texts = [text for text, _ in conditions]
        if is_negated and conditions:
            texts[-1] = conditions[-1][1]
        outer = [block.qualified(other) for other in block.conditions]
        outer[at : at + 1] = texts
        word = "EXISTS" if isinstance(test, exp.Exists) else "IN"
        yield query.instead(
            block.select,
            f"JOIN for {'NOT ' if is_negated else ''}{word}",
            Kind.JOIN,
            6,
            block.written(f"{block.from_text()}, {inner.from_text()}", outer),
            place=query.span(condition),
        )


def semijoin_of(test: Node, query: Query) -> Block | None:
    """The SELECT of an EXISTS or IN; None of what is neither."""
    inner = (
        test.this
        if isinstance(test, exp.Exists)
        else test.args.get("query")
        if isinstance(test, exp.In)
        else None
    )
    while isinstance(inner, exp.Subquery):
        inner = inner.this
    return block_of(inner, query) if inner is not None else None


def conditions_of(test: Node, inner: Block) -> list[tuple[str, str]] | None:
    """What a semijoin asks of a pair of rows, the link of IN last, each with its negation; None
    where it can't be told."""
    query = inner.query
    found = [
        (inner.qualified(condition), inner.negated(condition)) for condition in inner.conditions
    ]
    if isinstance(test, exp.In):
        items = inner.select.expressions
        if len(items) != 1 or is_star(items[0]):
            return None
        item = items[0].this if isinstance(items[0], exp.Alias) else items[0]
        link = f"{query.qualified(test.this)} = {query.qualified(item)}"
        found.append((link, f"NOT {link}"))
    return found


def semijoined(block: Block) -> Iterator[Change]:
    """EXISTS for each table of FROM that no column of SELECT is taken from."""
    for member, inside, outside, others in apart(block):
        where = " WHERE " + " AND ".join(map(block.qualified, inside)) if inside else ""
        test = f"EXISTS(SELECT * FROM {block.query.source(member)}{where})"
        yield block.query.instead(
            block.select,
            f"EXISTS for the JOIN with {name_in_from(member)}",
            Kind.JOIN,
            6,
            block.written(others, [*map(block.qualified, outside), test]),
            place=block.query.span(member),
        )


def apart(block: Block) -> Iterator[tuple[Node, list[Node], list[Node], str]]:
    """Each table that SELECT shows no column of, the conditions that name it, the others, the other
    tables."""
    if block.has_star or not block.is_plain:
        return
    shown = block.shown_names()
    for member in block.sources:
        name = name_in_from(member)
        others = [other for other in block.sources if other is not member]
        if others and name and name not in shown:
            inside = [one for one in block.all_conditions if block.mentions(one, name)]
            outside = [one for one in block.all_conditions if not block.mentions(one, name)]
            yield member, inside, outside, ", ".join(block.query.source(other) for other in others)


def as_exists(node: Node, query: Query) -> Iterator[Change]:
    """EXISTS for IN: NOT IN is never true where the inner query has a NULL."""
    if not isinstance(node, exp.In):
        return
    inner = semijoin_of(node, query)
    conditions = conditions_of(node, inner) if inner else None
    around = {name for scope in query.scopes.visible(node) for name in scope}
    if (
        inner
        and conditions
        and not around & set(inner.names())
        and not inner.select.args.get("group")
    ):
        where = " AND ".join(text for text, _ in conditions)
        yield query.instead(
            node,
            "EXISTS for IN",
            Kind.NULL,
            2,
            f"EXISTS (SELECT * FROM {inner.from_text()} WHERE {where})",
        )
