"""Which tables and columns can be named at a place of a query."""
from __future__ import annotations

from collections.abc import Iterator, Mapping

from sqlglot import exp

from classroom.sql.tree import SETS, Node, bare
from classroom.sql.schema import spelled

# The columns of a table at hand by their names, with their kinds; None where the kind is not known.
Columns = Mapping[str, "str | None"]


def name_of(identifier: Node | None) -> str:
    """A name as `ratest` reads it, small where it is not quoted."""
    if not isinstance(identifier, exp.Identifier):
        return ""
    name = str(identifier.this)
    return name if identifier.args.get("quoted") else name.lower()


def column(table: str, name: str) -> str:
    """TABLE.NAME, or NAME where the table is empty."""
    return f"{spelled(table)}.{spelled(name)}" if table else spelled(name)


class Scopes:
    """Over the tables of a schema, the columns of each with their kinds."""

    def __init__(self, tables: Mapping[str, Columns]) -> None:
        self.tables = tables
        self.known: dict[int, dict[str, Columns]] = {}

    def visible(self, node: Node) -> list[dict[str, Columns]]:
        """What can be named at a node: for each SELECT around it, the innermost first, its tables
        at hand."""
        found = []
        inner, parent = node, node.parent
        while parent is not None:
            if isinstance(parent, exp.Select) and not is_source(inner):
                found.append(self.sources(parent))
            elif (
                isinstance(parent, exp.Join)
                and inner.arg_key == "on"
                and isinstance(parent.parent, exp.Select)
            ):
                found.append(self.sources(parent.parent))
            inner, parent = parent, parent.parent
        return found

    def sources(self, select: Node) -> dict[str, Columns]:
        """The tables in the FROM of a SELECT by the names that they have there."""
        if id(select) not in self.known:
            self.known[id(select)] = {
                name_in_from(source): self.columns(source) for source in sources(select)
            }
        return self.known[id(select)]

    def columns(self, source: Node) -> Columns:
        if isinstance(source, exp.Table):
            return self.tables.get(name_of(source.this), {})
        query = source.this if isinstance(source, exp.Subquery) else source
        while isinstance(query, (exp.Subquery, *SETS)):
            query = query.this
        if not isinstance(query, exp.Select):
            return {}
        found: dict[str, str | None] = {}
        for item in query.expressions:
            if is_star(item):
                of = name_of(item.args.get("table"))
                for name, columns in self.sources(query).items():
                    found.update(columns if of in ("", name) else {})
            elif isinstance(item, exp.Alias):
                found[name_of(item.args["alias"])] = self.kind(item.this)
            elif isinstance(item, exp.Column):
                found[name_of(item.this)] = self.kind(item)
        return found

    def source_of(self, node: Node) -> tuple[str, Columns]:
        """The table that a column is taken from, and the columns that it has; none where it isn't
        known."""
        table, name = name_of(node.args.get("table")), name_of(node.this)
        for scope in self.visible(node):
            if table in scope:
                return table, scope[table]
            holders = [source for source, columns in scope.items() if not table and name in columns]
            if holders:
                return holders[0], scope[holders[0]]
        return table, {}

    def table_of(self, node: Node) -> str:
        """The schema's table that a column is taken from; empty of a derived table's."""
        return self.table_named(node, self.source_of(node)[0])

    def table_named(self, node: Node, name: str) -> str:
        """The schema's table that a name is at a node; empty of a derived table."""
        at = node.parent
        while at is not None and name:
            if isinstance(at, exp.Select):
                for source in sources(at):
                    if name_in_from(source) == name:
                        return name_of(source.this) if isinstance(source, exp.Table) else ""
            at = at.parent
        return ""

    def kind(self, node: Node) -> str | None:
        """INTEGER or TEXT; None where it isn't known."""
        node = bare(node)
        if isinstance(node, exp.Column):
            return self.source_of(node)[1].get(name_of(node.this))
        if isinstance(node, exp.Literal):
            return "TEXT" if node.is_string else "INTEGER"
        return "INTEGER" if isinstance(node, (exp.Add, exp.Sub, exp.Mul, exp.Neg)) else None


def is_source(node: Node) -> bool:
    """Whether a part of a SELECT is one of its tables, from where the others can't be named."""
    return isinstance(node, (exp.From, exp.Join))


def is_star(node: Node) -> bool:
    return (
        isinstance(node, exp.Star)
        or isinstance(node, exp.Column)
        and isinstance(node.this, exp.Star)
    )


def sources(select: Node) -> Iterator[Node]:
    begin = select.args.get("from")
    if begin:
        yield from begin.expressions
    for join in select.args.get("joins") or []:
        yield join.this


def name_in_from(source: Node) -> str:
    alias = source.args.get("alias")
    if isinstance(alias, exp.TableAlias):
        return name_of(alias.this)
    return name_of(source.this) if isinstance(source, exp.Table) else ""
