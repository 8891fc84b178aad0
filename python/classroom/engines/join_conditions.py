"""The conditions of a FROM that are understood, written back for an engine."""
from __future__ import annotations

from collections.abc import Mapping, Sequence
from typing import NamedTuple

from sqlglot import exp

from classroom.engines.tables_read import found, name_of
from classroom.sql.tree import Node

COMPARISONS = (exp.EQ, exp.NEQ, exp.LT, exp.LTE, exp.GT, exp.GTE)


class Schema(NamedTuple):
    """Names of tables and their columns, in small letters, by their numbers."""

    tables: Sequence[str]
    columns: Sequence[frozenset[str]]


def column(alias: str, name: str) -> Node:
    return exp.Column(
        this=exp.Identifier(this=name, quoted=True), table=exp.Identifier(this=alias, quoted=True)
    )


class Writer:
    """Writes the conditions of one FROM that are understood, all columns with the name of their
    table."""

    def __init__(
        self, tables: Mapping[str, int], schema: Schema, dialect: str, is_plain: bool
    ) -> None:
        self.tables, self.schema, self.dialect = tables, schema, dialect
        self.is_plain = is_plain  # the FROM has tables of the schema alone

    def owner(self, node: Node) -> str | None:
        """The name of the table that a column is of; None where it isn't known."""
        name, table = name_of(node.this), node.args.get("table")
        if table is not None:
            alias = name_of(table)
            return (
                alias
                if alias in self.tables and name in self.schema.columns[self.tables[alias]]
                else None
            )
        if not self.is_plain:
            return None
        holders = [alias for alias, of in self.tables.items() if name in self.schema.columns[of]]
        return holders[0] if len(holders) == 1 else None

    def aliases(self, condition: Node) -> set[str] | None:
        """The tables that a condition names; None where one isn't known."""
        owners = [self.owner(node) for node in found(condition, exp.Column)]
        return None if None in owners else {owner for owner in owners if owner}

    def is_known(self, condition: Node) -> bool:
        """Whether a condition is of a form that is written back as it was read."""
        node = condition
        if isinstance(node, exp.Paren):
            return self.is_known(node.this)
        if isinstance(node, (exp.And, exp.Or)):
            return self.is_known(node.this) and self.is_known(node.expression)
        if isinstance(node, exp.Not):
            return self.is_known(node.this)
        if isinstance(node, COMPARISONS):
            return self.is_value(node.this) and self.is_value(node.expression)
        if isinstance(node, exp.Is):
            return self.is_value(node.this) and isinstance(node.expression, exp.Null)
        if isinstance(node, exp.Between):
            return all(self.is_value(node.args.get(part)) for part in ("this", "low", "high"))
        if isinstance(node, exp.In):
            return (
                not node.args.get("query")
                and not node.args.get("unnest")
                and not node.args.get("field")
                and all(map(self.is_value, [node.this, *node.expressions]))
                and bool(node.expressions)
            )
        return (
            isinstance(node, exp.Like)
            and self.is_value(node.this)
            and self.is_value(node.expression)
        )

    def is_value(self, node: Node | None) -> bool:
        if isinstance(node, exp.Paren):
            return self.is_value(node.this)
        if isinstance(node, exp.Neg):
            return isinstance(node.this, exp.Literal)
        if isinstance(node, (exp.Add, exp.Sub, exp.Mul)):
            return self.is_value(node.this) and self.is_value(node.expression)
        return (
            isinstance(node, exp.Literal)
            or isinstance(node, exp.Column)
            and self.owner(node) is not None
        )

    def all_of(self, conditions: Sequence[Node], names: set[str]) -> str:
        """The AND of those conditions that are known and name these tables alone."""
        texts = []
        for condition in conditions:
            if self.is_known(condition) and (self.aliases(condition) or set()) <= names:
                texts.append(f"({self.written(condition)})")
        return " AND ".join(texts)

    def written(self, condition: Node) -> str:
        copy: Node = condition.copy()  # type: ignore[no-untyped-call]
        for node in found(copy, exp.Column):
            new = column(self.owner(node) or "", name_of(node.this))
            if node is copy:
                return str(new.sql(dialect=self.dialect))
            node.replace(new)  # type: ignore[no-untyped-call]
        return str(copy.sql(dialect=self.dialect, comments=False))
