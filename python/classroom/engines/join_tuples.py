"""Which rows can matter together, by the tree of a query.

A SELECT depends on a part of the rows only by the tuples of the tables in its FROM that lie in the
part: of inner joins those for which the conditions hold, and of an outer join also each row of the
outer side alone. So each part answers as the union of such tuples in it, with what their rows refer
to, and a smallest witness is a union of tuples. A condition that isn't understood is dropped, which
gives more tuples; where a FROM isn't, each row of its tables counts alone, as in all lawful parts.
This is an argument and tests, no proof. """
from __future__ import annotations

from collections.abc import Iterator, Mapping, Sequence
from dataclasses import dataclass, field
from typing import NamedTuple

import sqlglot
from sqlglot import exp

from classroom.engines.join_conditions import COMPARISONS, Schema, Writer, column
from classroom.engines.tables_read import READERS, found, mentions, name_of
from classroom.sql.tree import UNREAD, Node
from classroom.sql.tokens import Dialect, tokens

MOST_TABLES = 8  # in one tuple


@dataclass(frozen=True)
class Tuples:
    """The tuples of some tables for which a condition holds."""

    tables: tuple[tuple[int, str], ...]  # their numbers, and their names in the condition
    condition: str


@dataclass
class Understood:
    """What is known of the queries: their tuples, and the tables whose rows count each alone."""

    tuples: list[Tuples] = field(default_factory=list)
    alone: set[int] = field(default_factory=set)


class Source(NamedTuple):
    """A table in a FROM."""

    table: int
    alias: str  # in small letters


@dataclass(frozen=True)
class Joined:
    """A table in a FROM with how it is joined."""

    source: Source | None  # None for what is no table of the schema
    is_left: bool
    conditions: tuple[Node, ...]


def understood(queries: Sequence[str], schema: Schema, dialect: str) -> Understood:
    """Of both queries and the views."""
    made = Understood()
    numbers = {name: at for at, name in enumerate(schema.tables)}
    for text in queries:
        seen = mentions(text, numbers, READERS[dialect])
        try:
            tree = sqlglot.parse_one(text, read=dialect)
            if tree is None:
                raise ValueError
            gone = {str(cte.alias).lower() for cte in found(tree, exp.CTE)}
            for select in found(tree, exp.Select):
                read, sources = block(select, numbers, gone, schema, dialect)
                made.tuples += read
                for source in sources:
                    seen[source.table] = seen.get(source.table, 0) - 1
            for name in no_tables(tree):
                if name in numbers:
                    seen[numbers[name]] = seen.get(numbers[name], 0) - 1
        except UNREAD:
            made.alone |= set(mentions(text, numbers, READERS[dialect]))
            continue
        # A name that is no table of a FROM that was read may be one in a place that isn't known.
        made.alone |= {table for table, count in seen.items() if count}
        made.alone |= {numbers[name] for name in gone if name in numbers}
        made.alone |= {
            numbers[name_of(table.this)]
            for table in found(tree, exp.Table)
            if (table.args.get("db") or table.args.get("catalog"))
            and name_of(table.this) in numbers
        }
    return made


def no_tables(tree: Node) -> Iterator[str]:
    """The names in a query that stand for a column, or that it gives itself, without a dot
    beside."""
    for node in found(tree, exp.Column):
        # SQLite has X IN TABLE.
        if node.args.get("table") is None and not (
            isinstance(node.parent, exp.In) and node.arg_key == "field"
        ):
            yield name_of(node.this)
    for node in found(tree, exp.Alias):
        yield name_of(node.args.get("alias"))
    for node in found(tree, exp.TableAlias):
        yield name_of(node.this)
    for node in found(tree, exp.Join):
        yield from (
            name_of(name)
            for name in node.args.get("using") or []
            if isinstance(name, exp.Identifier)
        )


def block(
    select: Node, numbers: Mapping[str, int], gone: set[str], schema: Schema, dialect: str
) -> tuple[list[Tuples], list[Source]]:
    """The tuples of one SELECT, and the tables of its FROM that they account for."""
    items = joined(select, numbers, gone, schema)
    if items is None:
        return [], []
    sources = [item.source for item in items if item.source]
    if (
        len({source.alias for source in sources}) < len(sources)
        or not 0 < len(sources) <= MOST_TABLES
    ):
        return [], []
    plain = len(sources) == len(items)
    where = select.args.get("where")
    base = [item for item in items if item.source and not item.is_left]
    conditions = [part for item in items if not item.is_left for part in item.conditions]
    conditions += conjuncts(where.this) if where else []
    write = Writer({source.alias: source.table for source in sources}, schema, dialect, plain)
    first = [item.source for item in base if item.source]
    made = (
        [Tuples(tuple(first), write.all_of(conditions, {source.alias for source in first}))]
        if first
        else []
    )
    needs: dict[str, set[str]] = {}
    outer: dict[str, Joined] = {}
    for item in items:
        if not item.is_left or not item.source:
            continue
        own = item.source.alias
        # Where a comparison with another outer table holds, that one has a row.
        met = {
            alias
            for part in item.conditions
            if isinstance(part, COMPARISONS)
            for alias in write.aliases(part) or ()
            if alias in outer and write.is_known(part)
        }
        needs[own] = met.union(*(needs[alias] for alias in met)) if met else set()
        outer[own] = item
        members = [*first, *(outer[alias].source for alias in sorted(needs[own])), item.source]
        with_tables = tuple(source for source in members if source)
        names = {source.alias for source in with_tables}
        held = [part for alias in (*sorted(needs[own]), own) for part in outer[alias].conditions]
        base_part = [
            part
            for part in conditions
            if (write.aliases(part) or {own}) <= {source.alias for source in first}
        ]
        made.append(Tuples(with_tables, write.all_of([*base_part, *held], names)))
    return made, sources


def joined(
    select: Node, numbers: Mapping[str, int], gone: set[str], schema: Schema
) -> list[Joined] | None:
    """The tables of a FROM with how they are joined; None where it isn't of a form that is
    understood."""
    begin = select.args.get("from")
    if begin is None or select.args.get("laterals"):
        return None
    items = [Joined(source_of(node, numbers, gone), False, ()) for node in begin.expressions]
    nodes = list(begin.expressions)
    for join in select.args.get("joins") or []:
        side, kind = (
            str(join.args.get("side") or "").upper(),
            str(join.args.get("kind") or "").upper(),
        )
        if (
            join.args.get("natural")
            or side not in ("", "LEFT")
            or kind not in ("", "INNER", "CROSS", "OUTER")
        ):
            return None
        if kind == "OUTER" and side != "LEFT":
            return None
        source = source_of(join.this, numbers, gone)
        on = join.args.get("on")
        parts = conjuncts(on) if on is not None else []
        names = join.args.get("using")
        if names:
            parts = using([name_of(name) for name in names], source, items, schema)
        items.append(Joined(source, side == "LEFT", tuple(parts)))
        nodes.append(join.this)
    if any(item.is_left and item.source is None for item in items):
        # What an outer join gives of a query is not known by the rows of its tables alone, but the
        # rows of the tables beside it are.
        items = [item for item in items if item.source or not item.is_left]
        items.append(Joined(None, False, ()))
    if any(isinstance(node, exp.Table) and node.args.get("joins") for node in nodes):
        return None
    return items


def using(
    names: Sequence[str], source: Source | None, before: Sequence[Joined], schema: Schema
) -> list[Node]:
    """The comparisons of USING where just one table before has the column."""
    made: list[Node] = []
    for name in names:
        holders = [
            item.source
            for item in before
            if item.source and name in schema.columns[item.source.table]
        ]
        if source and len(holders) == 1 and all(item.source for item in before):
            made.append(
                exp.EQ(this=column(holders[0].alias, name), expression=column(source.alias, name))
            )
    return made


def source_of(node: Node, numbers: Mapping[str, int], gone: set[str]) -> Source | None:
    if not isinstance(node, exp.Table) or not isinstance(node.this, exp.Identifier):
        return None
    name = name_of(node.this)
    if name not in numbers or name in gone or node.args.get("db"):
        return None
    alias = node.args.get("alias")
    if isinstance(alias, exp.TableAlias):
        if alias.args.get("columns"):
            return None
        return Source(numbers[name], name_of(alias.this) or name)
    return Source(numbers[name], name)


def conjuncts(condition: Node) -> list[Node]:
    while isinstance(condition, exp.Paren):
        condition = condition.this
    if isinstance(condition, exp.And):
        return conjuncts(condition.this) + conjuncts(condition.expression)
    return [condition]


def is_ordered(text: str, dialect: str) -> bool:
    """Whether a query has an ORDER BY at its top."""
    try:
        tree = sqlglot.parse_one(text, read=dialect)
    except UNREAD:
        return ordered_by_tokens(text, READERS[dialect])
    while isinstance(tree, (exp.Paren, exp.Subquery)):
        if tree.args.get("order"):
            return True
        tree = tree.this
    if tree is None:
        return False
    return bool(tree.args.get("order")) or ordered_by_tokens(text, READERS[dialect])


def ordered_by_tokens(text: str, dialect: Dialect) -> bool:
    depth = 0
    for token in tokens(text, dialect):
        depth += (token.text == "(") - (token.text == ")")
        if depth == 0 and token.kind == "word" and token.text.lower() == "order":
            return True
    return False


def unions(
    masks: Sequence[int], less_than: int, most: int, wanted: int | None = None
) -> Iterator[int | None]:
    """All unions of masks that have fewer rows than that, the smallest first, each once; None, and
    then no more, where more than `most` would have to be remembered, or as many as are wanted were
    found."""
    own = sorted(
        {mask for mask in masks if mask and mask.bit_count() < less_than},
        key=lambda mask: (mask.bit_count(), mask),
    )
    by_row: dict[int, list[int]] = {}
    for mask in own:
        rest = mask
        while rest:
            bit = rest & -rest
            by_row.setdefault(bit, []).append(mask)
            rest ^= bit
    least = own[0].bit_count() if own else 0
    sizes: list[set[int]] = [set() for _ in range(max(less_than, 0))]
    if sizes:
        sizes[0].add(0)
    found = [len(of) for of in sizes]
    held, total, is_cut, size = 0, 1, False, -1
    while (size := size + 1) < less_than:
        for part in sorted(sizes[size]):
            yield part
            if wanted is not None and total >= wanted and size + 1 >= less_than - 1:
                is_cut = True  # what it would bring comes behind all that are wanted
                continue
            near: Sequence[int] | set[int] = own
            if size and size + least >= less_than:
                near = set()
                rest = part
                while rest:
                    bit = rest & -rest
                    near.update(by_row.get(bit, ()))
                    rest ^= bit
            for mask in near:
                union = part | mask
                count = union.bit_count()
                if size < count < less_than and union not in sizes[count]:
                    if wanted is not None and total >= wanted and count == less_than - 1:
                        is_cut = True
                        continue
                    sizes[count].add(union)
                    found[count] += 1
                    held, total = held + 1, total + 1
                    while (
                        wanted is not None
                        and count < less_than - 1
                        and total - found[less_than - 1] >= wanted
                    ):
                        less_than, is_cut = less_than - 1, True
                        held, total = held - len(sizes[less_than]), total - found[less_than]
            if held > most:
                yield None
                return
        held -= len(sizes[size])
        sizes[size] = set()
    if is_cut:
        yield None
