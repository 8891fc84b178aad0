"""One change of a query, as a mistake makes it; and the smaller queries that a failure is reduced
to."""
from __future__ import annotations

import dataclasses
from typing import TYPE_CHECKING, Any, Callable, Iterator, Optional

from .query import (
    Arith,
    Between,
    Compare,
    Const,
    Exists,
    InList,
    InQuery,
    IsNull,
    Joined,
    Negative,
    Not,
    Query,
    Select,
    SetOperation,
    columns_of,
)

if TYPE_CHECKING:
    from .draw import Draw
    from .model import Case

SIGNS = ("=", "<>", "<", "<=", ">", ">=")
WORDS = ("UNION", "EXCEPT", "INTERSECT")


def variants(node: Any) -> Iterator[Any]:
    """What may stand in the place of one node, of the same sort and the same columns."""
    if isinstance(node, Compare):
        yield from (dataclasses.replace(node, sign=sign) for sign in SIGNS if sign != node.sign)
        yield Compare(node.sign, node.right, node.left)
    elif isinstance(node, (IsNull, InQuery, InList, Between)):
        yield dataclasses.replace(node, negated=not node.negated)
    elif isinstance(node, Joined):
        yield dataclasses.replace(node, word="OR" if node.word == "AND" else "AND")
        yield from node.parts
    elif isinstance(node, Not):
        yield node.of
    elif isinstance(node, Exists):
        yield Not(node)
    elif isinstance(node, Const) and isinstance(node.value, int) and abs(node.value) < 2**62:
        yield from (Const(node.value + 1), Const(node.value - 1))
    elif isinstance(node, Arith):
        yield node.left
        yield dataclasses.replace(node, sign="+" if node.sign == "-" else "-")
    elif isinstance(node, Negative):
        yield node.of
    elif isinstance(node, SetOperation):
        yield from (dataclasses.replace(node, word=word) for word in WORDS if word != node.word)
        yield node.left
        if columns_of(node.left) == columns_of(node.right):
            yield from (node.right, SetOperation(node.word, node.right, node.left))
    elif isinstance(node, Select) and node.where is not None:
        yield dataclasses.replace(node, where=None)


def children(node: Any) -> Iterator[tuple[str, Any]]:
    """The fields of a node that hold nodes."""
    for part in dataclasses.fields(node):
        value = getattr(node, part.name)
        if (
            dataclasses.is_dataclass(value)
            or isinstance(value, tuple)
            and value
            and all(map(dataclasses.is_dataclass, value))
        ):
            yield part.name, value


def changes(node: Any) -> Iterator[Any]:
    """The node with one change, at each place below it. The names of what comes out of a derived
    table stay, since the query around it may name them."""
    yield from variants(node)
    for name, value in children(node):
        if isinstance(value, tuple):
            for at, member in enumerate(value):
                for other in changes(member):
                    yield dataclasses.replace(
                        node, **{name: value[:at] + (other,) + value[at + 1 :]}
                    )
        else:
            for other in changes(value):
                yield dataclasses.replace(node, **{name: other})


def reductions(case: Case) -> Iterator[Case]:
    """Cases with one row less, one rule less, or a query with one change that makes it shorter."""
    for table in case.tables:
        rows = case.rows[table.name]
        for at in range(len(rows)):
            yield dataclasses.replace(
                case, rows={**case.rows, table.name: rows[:at] + rows[at + 1 :]}
            )
    for place, table in enumerate(case.tables):
        for part in ("foreign_keys", "checks", "unique"):
            found = getattr(table, part)
            for at in range(len(found)):
                fewer = dataclasses.replace(table, **{part: found[:at] + found[at + 1 :]})
                yield dataclasses.replace(
                    case, tables=case.tables[:place] + [fewer] + case.tables[place + 1 :]
                )
    for part in ("first", "second"):
        query = getattr(case, part)
        size = len(repr(query))
        for other in changes(query):
            if len(repr(other)) < size and len(columns_of(other)) == len(columns_of(query)):
                yield dataclasses.replace(case, **{part: other})


def reduced(case: Case, fails: Callable[[Case], bool]) -> Case:
    """A case that still fails, and of which no reduction does."""
    found: Optional[Case] = case
    while found is not None:
        case = found
        found = next((other for other in reductions(case) if fails(other)), None)
    return case


def changed(query: Query, draw: Draw) -> Query:
    among = list(changes(query))
    return draw.pick(among) if among else query
