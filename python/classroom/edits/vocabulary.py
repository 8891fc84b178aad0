"""Of what a change may be made: the tables, the columns that mean the same, the constants and the
reference."""
from __future__ import annotations

from collections.abc import Iterable, Mapping, Sequence
from dataclasses import dataclass, field
from typing import TYPE_CHECKING

from sqlglot import exp

from classroom.sql.scopes import Scopes, name_of
from classroom.sql.tree import COMPARISONS, Node
from classroom.exercise.rules import rules_of
from classroom.sql.schema import Table, items_of

if TYPE_CHECKING:
    from classroom.edits.query import Query

Place = tuple[str, str]  # a table and a column
# Words that begin a rule of a table.
RULES = ("constraint", "primary", "unique", "foreign", "check", "dependency")


@dataclass(frozen=True)
class Vocabulary:
    """Over the tables of a schema; without the rest only the changes that need none are made."""

    tables: Mapping[str, Mapping[str, str | None]]  # the kinds of columns
    classes: Mapping[Place, Place] = field(
        default_factory=dict
    )  # one of those that a column means the same as
    compared: frozenset[frozenset[Place]] = frozenset()  # columns that a query compares
    whole: frozenset[Place] = frozenset()  # columns that are never NULL
    numbers: tuple[int, ...] = ()
    texts: tuple[str, ...] = ()
    wanted: frozenset[int | str] = frozenset()  # the constants of the reference
    reference: Query | None = None

    def are_linked(self, one: Place, other: Place) -> bool:
        """Whether a foreign key links two columns, or both refer to the same one."""
        return self.classes.get(one, one) == self.classes.get(other, other)

    def are_related(self, one: Place, other: Place) -> bool:
        """Whether it can mean something to compare two columns: they are linked or have one name,
        or a query compares them. Columns of derived tables are taken as related to all."""
        return (
            not one[0]
            or not other[0]
            or one[1] == other[1]
            or self.are_linked(one, other)
            or frozenset((one, other)) in self.compared
        )

    def constants(self, kind: str | None) -> Sequence[int | str]:
        if kind == "INTEGER":
            return self.numbers
        return self.texts if kind == "TEXT" else ()


def of_tables(tables: Iterable[Table]) -> Vocabulary:
    return Vocabulary(
        {table.name: {column.name: column.kind for column in table.columns} for table in tables}
    )


def classes_of(schema: str, tables: Sequence[Table]) -> dict[Place, Place]:
    """For each column that a foreign key has or names, one of those that are linked with it."""
    found: dict[Place, Place] = {}

    def root(place: Place) -> Place:
        while found.get(place, place) != place:
            place = found[place]
        return place

    for table, rules in zip(tables, rules_of(schema)):
        for columns, target, to in rules.foreigns:
            for column, other in zip(columns, to):
                found[root((table.name, column))] = root((target, other))
    return {place: root(place) for place in {*found, *found.values()}}


def never_null(schema: str, tables: Sequence[Table]) -> frozenset[Place]:
    """The columns of primary keys, and those that are NOT NULL."""
    found = {
        (table.name, column)
        for table, rules in zip(tables, rules_of(schema))
        for column in rules.primary
    }
    for name, items in items_of(schema):
        for item in items:
            words = [token.text if token.kind == "word" else "" for token in item]
            if ("not", "null") in zip(words[1:], words[2:]) and words[0] not in RULES:
                found.add((name, item[0].text))
    return frozenset(found)


def constants_of(trees: Iterable[Node]) -> tuple[tuple[int, ...], tuple[str, ...]]:
    """The whole numbers and the texts of queries."""
    numbers, texts = set(), set()
    for tree in trees:
        for literal in tree.find_all(exp.Literal):
            if literal.is_string:
                texts.add(str(literal.this))
            elif str(literal.this).isdecimal():
                value = int(literal.this)
                numbers.add(-value if isinstance(literal.parent, exp.Neg) else value)
    return tuple(sorted(numbers)), tuple(sorted(texts))


def compared_in(
    trees: Iterable[Node], tables: Mapping[str, Mapping[str, str | None]]
) -> frozenset[frozenset[Place]]:
    """The pairs of columns that queries compare."""
    scopes = Scopes(tables)
    found = set()
    for tree in trees:
        for node in tree.find_all(*COMPARISONS, exp.In):
            other = inner_item(node) if isinstance(node, exp.In) else node.expression
            if isinstance(node.this, exp.Column) and isinstance(other, exp.Column):
                found.add(frozenset((place_of(node.this, scopes), place_of(other, scopes))))
    return frozenset(found)


def inner_item(node: Node) -> Node | None:
    """The one column of an IN's query."""
    query = node.args.get("query")
    items = query.expressions if isinstance(query, exp.Select) else []
    return items[0] if len(items) == 1 else None


def place_of(node: Node, scopes: Scopes) -> Place:
    """The table and the column that a column is; the table is empty of a derived one."""
    return scopes.table_of(node), name_of(node.this)
