"""Conditions of the reference, written over the tables of another query."""
from __future__ import annotations

import itertools
from collections.abc import Iterator
from dataclasses import dataclass

from sqlglot import exp

from classroom.edits.block import Block, part
from classroom.edits.query import Insertion, Query, table_in
from classroom.sql.scopes import is_star, name_in_from, sources
from classroom.sql.tree import COMPARISONS, Node, conjuncts
from classroom.sql.schema import spelled

MOST_WAYS = 12  # to choose the tables of one condition


@dataclass(frozen=True)
class Transplant:
    """One condition of the reference, or all of a SELECT's."""

    text: str
    count: int  # of conditions
    subqueries: int
    is_link: bool  # a comparison of two columns
    is_far: bool  # it names no table of the SELECT itself, but one around it


def transplants(block: Block, is_whole: bool) -> Iterator[Transplant]:
    """Each condition of the reference over tables here that are the same, or each SELECT's as a
    whole."""
    reference = block.query.vocabulary.reference
    if reference is None:
        return
    here = tables_here(block)
    seen: set[str] = set()
    for select in reference.tree.find_all(exp.Select):
        where = select.args.get("where")
        conditions = conjuncts(where.this if where else None)
        for join in select.args.get("joins") or []:
            conditions = conditions + conjuncts(join.args.get("on"))
        groups = [conditions] if is_whole else [[one] for one in conditions]
        for group in groups:
            subqueries = sum(1 for one in group for _ in one.find_all(exp.Select))
            is_link = (
                len(group) == 1
                and isinstance(group[0], COMPARISONS)
                and all(
                    isinstance(side, exp.Column) for side in (group[0].this, group[0].expression)
                )
            )
            for text, names in over(group, reference, here):
                if text not in seen:
                    seen.add(text)
                    is_far = bool(names) and not names & set(block.names())
                    yield Transplant(text, len(group), subqueries, is_link, is_far)


def over(
    group: list[Node], reference: Query, here: list[tuple[str, str]]
) -> Iterator[tuple[str, set[str]]]:
    """The conditions over each choice of tables here that are those of the reference, with their
    names here."""
    inner = {
        name_in_from(source)
        for one in group
        for select in one.find_all(exp.Select)
        for source in sources(select)
    }
    tables: dict[str, str] = {}
    for one in group:
        for column in one.find_all(exp.Column):
            name = reference.scopes.source_of(column)[0]
            if name and name not in inner and not is_star(column):
                tables[name] = reference.scopes.table_of(column)
    ways = [[other for other, table in here if table and table == of] for of in tables.values()]
    taken = {name for name, _ in here}
    renamed = {name: fresh(name, taken | inner) if name in taken else name for name in inner}
    for way in itertools.islice(itertools.product(*ways), MOST_WAYS):
        if len(set(way)) == len(way):
            names = {**dict(zip(tables, way)), **renamed}
            yield " AND ".join(
                part(one, written_over(one, reference, names)) for one in group
            ), set(way)


def written_over(condition: Node, reference: Query, names: dict[str, str]) -> str:
    """A condition with its tables under other names."""
    pieces: list[Insertion] = list(reference.qualifications(condition, names))
    for source in condition.find_all(exp.Table):
        name = name_in_from(source)
        if names.get(name, name) != name:
            pieces.append(
                (*reference.span(source), f"{spelled(table_in(source))} {spelled(names[name])}")
            )
    return reference.source(condition, pieces)


def tables_here(block: Block) -> list[tuple[str, str]]:
    """The names that can be used in a SELECT, with the tables that they are."""
    found: dict[str, str] = {}
    inner: Node | None = None
    at: Node | None = block.select
    while at is not None:
        if isinstance(at, exp.Select) and not isinstance(inner, (exp.From, exp.Join)):
            for source in sources(at):
                found.setdefault(name_in_from(source), table_in(source))
        inner, at = at, at.parent
    return list(found.items())


def fresh(name: str, taken: set[str]) -> str:
    return next(
        made for made in (f"{name}{number}" for number in itertools.count(2)) if made not in taken
    )
