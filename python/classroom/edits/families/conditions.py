"""A condition missing, a condition for another, or a whole WHERE: of the columns at hand, and of
the reference.

Students forget the condition that joins two tables, that keeps two copies of a row apart or leaves
NULL out, or the one that the question names last. """
from __future__ import annotations

from collections.abc import Iterator, Sequence
from dataclasses import dataclass

from sqlglot import exp

from classroom.edits.block import Block, block_of
from classroom.edits.change import Change, Kind
from classroom.edits.transplants import transplants
from classroom.edits.query import Query, table_in
from classroom.sql.scopes import column, name_in_from, sources
from classroom.sql.tree import Node, written
from classroom.edits.vocabulary import Place, Vocabulary
from classroom.sql.schema import literal


@dataclass(frozen=True)
class Wanted:
    """A condition that may be missing."""

    text: str
    cost: int
    is_link: bool  # it joins two tables
    sign: str  # of a comparison; empty of others


@dataclass(frozen=True)
class Seen:
    """A column at hand."""

    source: str
    table: str  # empty of a query's
    name: str
    kind: str | None
    is_own: bool  # of the SELECT itself, and not of one around

    @property
    def text(self) -> str:
        return column(self.source, self.name)

    @property
    def place(self) -> Place:
        return self.table, self.name


def changes(node: Node, query: Query) -> Iterator[Change]:
    block = block_of(node, query)
    if block is None:
        return
    present = {query.qualified(one) for one in block.all_conditions}
    texts = block.texts()
    for wanted in [*of_reference(block), *of_columns(block)]:
        if wanted.text in present:
            continue
        kind = Kind.JOIN_CONDITION_MISSING if wanted.is_link else Kind.CONDITION_MISSING
        span, text = block.replaced([*texts, wanted.text])
        yield Change(f"{wanted.text} added", kind, wanted.cost, span, text, block.place())
        for at, old in enumerate(block.conditions):
            span, text = block.replaced([*texts[:at], wanted.text, *texts[at + 1 :]])
            is_near = (
                wanted.sign and isinstance(old, exp.Binary) and not isinstance(old, exp.Connector)
            )
            yield Change(
                f"{wanted.text} for {written(old)}",
                Kind.CONDITION,
                wanted.cost + (1 if is_near else 2),
                span,
                text,
                query.span(old),
            )


def whole(node: Node, query: Query) -> Iterator[Change]:
    """WHERE as a SELECT of the reference has it."""
    block = block_of(node, query)
    if block is None:
        return
    for one in transplants(block, is_whole=True):
        if one.count > 1:
            span, made = block.replaced([one.text])
            yield Change(f"WHERE {one.text}", Kind.WHERE, 6 + one.count, span, made, block.place())


def of_reference(block: Block) -> Iterator[Wanted]:
    """The conditions of the reference, over the tables here."""
    for one in transplants(block, is_whole=False):
        cost = (6 if one.subqueries else 3) + 2 * one.is_far
        yield Wanted(one.text, cost, one.is_link, "" if one.subqueries else "=")


def of_columns(block: Block) -> Iterator[Wanted]:
    """Comparisons of columns at hand, and of columns with NULL and constants."""
    seen = columns_at_hand(block)
    words = block.query.vocabulary
    own = [one for one in seen if one.is_own]
    for at, one in enumerate(own):
        for other in [*own[at + 1 :], *(far for far in seen if not far.is_own)]:
            if one.source != other.source:
                yield from of_two(one, other, words)
        if one.place not in words.whole:
            yield Wanted(f"{one.text} IS NOT NULL", 3, False, "")
            yield Wanted(f"{one.text} IS NULL", 4, False, "")
        for value in words.constants(one.kind):
            signs = ("=", "<>", "<", "<=", ">", ">=") if one.kind == "INTEGER" else ("=", "<>")
            for sign in signs:
                yield Wanted(
                    f"{one.text} {sign} {literal(value)}",
                    4 if sign in ("=", "<>") else 5,
                    False,
                    sign,
                )


def of_two(one: Seen, other: Seen, words: Vocabulary) -> Iterator[Wanted]:
    """What two columns may have to do with one another."""
    if one.kind != other.kind and None not in (one.kind, other.kind):
        return
    if not words.are_related(one.place, other.place):
        return
    are_linked = words.are_linked(one.place, other.place)
    yield Wanted(f"{one.text} = {other.text}", 3 if are_linked else 4, True, "=")
    yield Wanted(f"{one.text} <> {other.text}", 4, True, "<>")
    if one.place == other.place or one.kind == "INTEGER" and not are_linked:
        for sign in ("<", ">", "<=", ">="):
            yield Wanted(f"{one.text} {sign} {other.text}", 5, True, sign)


def columns_at_hand(block: Block) -> list[Seen]:
    """Of the SELECT itself first; a name hides the same one further out."""
    query = block.query
    found: list[Seen] = []
    names: set[str] = set()
    for level, select in enumerate(around(block.select, query)):
        for source in sources(select):
            name = name_in_from(source)
            if name and name not in names:
                names.add(name)
                found += [
                    Seen(name, table_in(source), column_name, kind, level == 0)
                    for column_name, kind in query.scopes.columns(source).items()
                ]
    return found


def around(select: Node, query: Query) -> Sequence[Node]:
    """A SELECT and those around it whose tables can be named in it."""
    found, inner, at = [select], select, select.parent
    while at is not None:
        if isinstance(at, exp.Select) and not isinstance(inner, (exp.From, exp.Join)):
            found.append(at)
        inner, at = at, at.parent
    return found
