"""Texts of a query in which the orders that choose rows have a last key, so that no two rows tie.

An order chooses rows before LIMIT and OFFSET, in DISTINCT ON, in the windows whose value depends on
it, and in what puts values one behind the other, as string_agg. SQL leaves open in which order tied
rows come: a query whose answers differ between keys is not determined. """
from __future__ import annotations

from collections.abc import Callable, Mapping, Sequence

import sqlglot
from sqlglot import exp

from classroom.sql.tie_windows import quote_names, with_key, without_names
from classroom.sql.tokens import tokens
from classroom.sql.tree import SETS, UNREAD, Node, nodes

# The text of a key, of the expressions by which rows are known.
KeyOf = Callable[[Sequence[str]], str]
# What SQLite calls in place of GROUP_CONCAT: it orders texts of a sign, which is 0 for up and 1
# for down, a key of so many characters and what is joined.
JOINED, KEY_LENGTH = "ratest_joined", 16
JSON = frozenset({"json_agg", "jsonb_agg"})
MOST_WORDS = 2_000  # of a query that is looked at
# Without one of these words no order chooses rows.
CHOOSING = JSON | {"limit", "fetch", "offset", "over", "on"}
CHOOSING |= {"string_agg", "array_agg", "group_concat"}


def chooses(tree: Node) -> bool:
    """Whether an order in the query may choose rows."""
    return any(
        isinstance(node, (exp.Limit, exp.Fetch, exp.Offset, exp.Window))
        or is_joining(node)
        or isinstance(node, exp.Distinct)
        and bool(node.args.get("on"))
        for node in nodes(tree)
    )


def is_joining(node: Node) -> bool:
    """Whether an aggregate puts values one behind the other."""
    if isinstance(node, exp.Anonymous):
        return str(node.this).lower() in JSON
    return isinstance(node, (exp.GroupConcat, exp.ArrayAgg))


def untied(
    query: str, dialect: str, columns: Mapping[str, Sequence[str]], key_of: KeyOf, is_down: bool
) -> str | None:
    """The query with the key, from high to low where it is down; None where no order chooses or
    where the text isn't read.

    The columns are those of the tables, by their names in small letters."""
    words = [token.text.lower() for token in tokens(query)]
    if len(words) > MOST_WORDS or CHOOSING.isdisjoint(words):
        return None
    try:
        tree = sqlglot.parse_one(query, read=dialect)
        if tree is None or not chooses(tree):
            return None
        quote_names(tree)
        if not is_kept(query, tree, dialect):
            return None
        writer = _Writer(dialect, columns, key_of, is_down)
        made = writer.written(tree)
        return str(made.sql(dialect, comments=False)) if writer.count else None
    except UNREAD:
        return None


def is_kept(query: str, tree: Node, dialect: str) -> bool:
    """Whether sqlglot writes the words back that it sometimes loses."""
    before, after = (
        [token.text.lower() for token in tokens(text)]
        for text in (query, tree.sql(dialect, comments=False))
    )
    words = ("distinct", "filter", "recursive", "all", "over", "order")
    return all(before.count(word) == after.count(word) for word in words)


class _Writer:
    def __init__(
        self, dialect: str, columns: Mapping[str, Sequence[str]], key_of: KeyOf, is_down: bool
    ) -> None:
        self.dialect, self.key_of, self.is_down = dialect, key_of, is_down
        self.columns: dict[str, Sequence[str]] = dict(columns)
        self.common: dict[str, Node] = {}  # the queries of WITH
        self.sorted: set[int] = set()  # subqueries whose order has a key
        self.places: dict[tuple[int, tuple[str, ...]], int] = {}  # of windows
        self.count = 0  # of the keys that were put

    def written(self, tree: Node) -> Node:
        for cte in [node for node in nodes(tree) if isinstance(node, exp.CTE)]:
            alias = cte.args["alias"]
            names = [self.spelled(one) for one in alias.args.get("columns") or []]
            self.columns[str(cte.alias).lower()] = names or self.names(cte.this)
            self.common[str(cte.alias).lower()] = cte.this
        for select in [node for node in nodes(tree) if isinstance(node, exp.Select)]:
            self.select(select)
        for union in [node for node in nodes(tree) if isinstance(node, SETS)]:
            if not isinstance(union.parent, SETS):
                new = self.compound(union)
                if union is tree:
                    tree = new
                elif new is not union:
                    union.replace(new)
        return tree

    def select(self, select: Node) -> None:
        known = self.known(select)
        if not known:
            return
        without_names(select)
        for node in [one for one in nodes(select) if isinstance(one, exp.Window)]:
            if node.find_ancestor(exp.Select) is select:
                inner = node.this.this if isinstance(node.this, exp.Filter) else node.this
                place = self.place(node)
                with_key(node, lambda: self.key(known, place), is_joining(inner))
        self.aggregates(select)
        distinct = select.args.get("distinct")
        if distinct and distinct.args.get("on"):
            if not select.args.get("order"):
                keys: list[Node] = [
                    exp.Ordered(this=one.copy()) for one in distinct.args["on"].expressions
                ]
                select.set("order", exp.Order(expressions=keys))
            self.put(select, known)
        elif self.is_cut(select) and not is_last(select):
            if distinct:
                known = [self.sql(unaliased(item)) for item in select.expressions]
                if self.dialect != "sqlite":
                    if select.args.get("group") or select.find(exp.Window, exp.AggFunc):
                        return
                    # The same rows, of which an order may ask for more than their columns.
                    select.set("distinct", None)
                    groups = [sqlglot.parse_one(one, read=self.dialect) for one in known]
                    select.set("group", exp.Group(expressions=groups))
            self.put(select, known)

    def aggregates(self, select: Node) -> None:
        """Gives what joins values an order: its own, that of the subquery that it reads, or one of
        the key alone."""
        found = [
            one
            for one in nodes(select)
            if is_joining(one)
            and one.find_ancestor(exp.Select) is select
            and not isinstance(outer_of(one), exp.Window)
        ]
        source = self.ordered_source(select)
        known = self.from_columns(select) if found else []
        for node in found:
            inner = joined_values(node)
            if isinstance(inner, exp.Order):
                if known and not isinstance(inner.this, exp.Distinct):  # whose values never tie
                    inner.append("expressions", self.key(known))
            elif source is not None:
                self.order_source(source)
            elif known and self.dialect == "sqlite":
                self.join(node, inner, known)
            elif known and not isinstance(inner, exp.Distinct):
                order = exp.Order(this=inner.copy(), expressions=[self.key(known)])
                inner.replace(order)

    def order_source(self, source: Node) -> None:
        """Puts a key behind the order of a subquery, once; one that is cut has its own."""
        if self.is_cut(source) or id(source) in self.sorted:
            return
        self.sorted.add(id(source))
        is_distinct = bool(source.args.get("distinct"))
        items = [self.sql(unaliased(item)) for item in source.expressions]
        known = items if is_distinct else self.known(source)
        if known:
            self.put(source, known)

    def join(self, node: Node, inner: Node, known: list[str]) -> None:
        """SQLite's GROUP_CONCAT as a function that orders its values."""
        is_distinct = isinstance(inner, exp.Distinct)
        value = inner.expressions[0] if is_distinct else inner
        key = self.key([self.sql(value)] if is_distinct else known).this
        text = exp.Cast(this=value.copy(), to=exp.DataType.build("text"))
        signed = exp.DPipe(this=exp.Literal.string(str(int(self.is_down))), expression=key)
        made: Node = exp.DPipe(this=signed, expression=text)
        if is_distinct:
            made = exp.Distinct(expressions=[made])
        separator = node.args.get("separator")
        rest = [separator.copy()] if separator is not None else []
        node.replace(exp.Anonymous(this=JOINED, expressions=[made, *rest]))

    def ordered_source(self, select: Node) -> Node | None:
        """The ordered SELECT whose rows are all that a SELECT reads: engines join values in its
        order, which is the usual way to give them one."""
        found = sources(select)
        if len(found) != 1:
            return None
        inner: Node | None = found[0]
        if isinstance(inner, exp.Table):
            inner = self.common.get(str(inner.name).lower())
        while isinstance(inner, exp.Subquery):
            inner = inner.this
        return inner if isinstance(inner, exp.Select) and inner.args.get("order") else None

    def compound(self, union: Node) -> Node:
        """A compound of SELECTs that LIMIT cuts, as a table whose rows are ordered."""
        last = union
        while isinstance(last, SETS):
            last = last.expression
        if not isinstance(last, exp.Select) or not self.is_cut(last):
            return union
        names = self.names(union)
        if not names or len(set(names)) < len(names):
            return union
        outer = exp.Select(
            expressions=[exp.Star()],
            **{part: last.args.get(part) for part in ("order", "limit", "offset")},
        )
        for part in ("order", "limit", "offset"):
            last.set(part, None)
        inner = union.copy()
        ways = inner.args.get("with")
        inner.set("with", None)
        outer.set("with", ways)
        alias = exp.TableAlias(this=exp.to_identifier("ratest_all"))
        outer.set("from", exp.From(expressions=[exp.Subquery(this=inner, alias=alias)]))
        self.put(outer, [f'ratest_all."{name}"' for name in names])
        return outer

    def put(self, node: Node, known: list[str]) -> None:
        order = node.args.get("order")
        if order:
            order.append("expressions", self.key(known))
        else:
            node.set("order", exp.Order(expressions=[self.key(known)]))

    def place(self, window: Node) -> int:
        """A number below 0, the same for the windows of a SELECT that are ordered alike: these see
        tied rows in one order."""
        order = window.args.get("order")
        parts = [*(window.args.get("partition_by") or []), *([order] if order else [])]
        place = (id(window.find_ancestor(exp.Select)), tuple(map(self.sql, parts)))
        return -1 - self.places.setdefault(place, len(self.places))

    def key(self, known: list[str], place: int | None = None) -> Node:
        """A key of its own for each order, since each breaks ties by itself."""
        self.count += 1
        parts = [*known, str(self.count if place is None else place)]
        key = sqlglot.parse_one(f"SELECT {self.key_of(parts)}", read=self.dialect).expressions[0]
        is_first = (self.dialect == "sqlite") != self.is_down
        return exp.Ordered(this=key, desc=self.is_down, nulls_first=is_first)

    def is_cut(self, select: Node) -> bool:
        return bool(select.args.get("limit") or select.args.get("offset"))

    def known(self, select: Node) -> list[str]:
        """The expressions by which the rows of a SELECT are known."""
        group = select.args.get("group")
        if group and group.expressions:
            made = []
            for one in group.expressions:
                if isinstance(one, exp.Literal) and not one.is_string:
                    one = unaliased(select.expressions[int(one.name) - 1])
                made.append(self.sql(self.meant(select, one)))
            return made
        return [] if group else self.from_columns(select)

    def meant(self, select: Node, node: Node) -> Node:
        """What an alias of the SELECT stands for, where the name is no column."""
        if isinstance(node, exp.Column) and not node.args.get("table"):
            for item in select.expressions:
                if isinstance(item, exp.Alias) and item.alias.lower() == node.name.lower():
                    names = {
                        one.rpartition(".")[2].strip('"').lower()
                        for one in self.from_columns(select)
                    }
                    return node if node.name.lower() in names else item.this
        return node

    def from_columns(self, select: Node) -> list[str]:
        made = []
        for source in sources(select):
            named = source.args.get("alias")
            alias = self.spelled((named and named.this) or source.this)
            for name in self.of_source(source):
                made.append(f"{quoted(alias)}.{quoted(name)}" if alias else quoted(name))
        return made

    def of_source(self, source: Node) -> Sequence[str]:
        alias = source.args.get("alias")
        named = [self.spelled(one) for one in (alias.args.get("columns") or [])] if alias else []
        if named:
            return named
        if isinstance(source, exp.Table):
            return self.columns.get(str(source.name).lower(), ())
        return self.names(source.this) if isinstance(source, exp.Subquery) else ()

    def names(self, query: Node) -> list[str]:
        """The names of the columns of a query; none of one that has columns without a name."""
        while isinstance(query, (exp.Subquery, *SETS)):
            query = query.this
        made: list[str] = []
        for item in query.expressions if isinstance(query, exp.Select) else []:
            if isinstance(item, exp.Star):
                made += [name for source in sources(query) for name in self.of_source(source)]
            elif isinstance(item, exp.Column) and isinstance(item.this, exp.Star):
                for source in sources(query):
                    if str(source.alias or source.name).lower() == item.table.lower():
                        made += self.of_source(source)
            elif isinstance(item, (exp.Alias, exp.Column)):
                made.append(
                    self.spelled(item.args["alias"] if isinstance(item, exp.Alias) else item.this)
                )
            else:
                return []
        return made

    def spelled(self, name: Node | None) -> str:
        """A name as it is in quotes: small in PostgreSQL where it stands without them."""
        if not isinstance(name, exp.Identifier):
            return ""
        text = str(name.this)
        return text if name.args.get("quoted") or self.dialect == "sqlite" else text.lower()

    def sql(self, node: Node) -> str:
        return str(node.sql(self.dialect))


def is_last(select: Node) -> bool:
    """Whether what stands behind a SELECT is of the compound that it ends."""
    return isinstance(select.parent, SETS) and select.arg_key == "expression"


def outer_of(aggregate: Node) -> Node | None:
    """What stands around an aggregate with its FILTER."""
    outer: Node | None = aggregate.parent
    return outer.parent if isinstance(outer, exp.Filter) else outer


def joined_values(aggregate: Node) -> Node:
    """What is joined, with DISTINCT or the order before it."""
    if isinstance(aggregate, exp.Anonymous):
        made: Node = aggregate.expressions[0]
        return made
    inner: Node = aggregate.this
    separator = aggregate.args.get("separator")
    return separator if isinstance(separator, exp.Order) else inner


def unaliased(item: Node) -> Node:
    return item.this if isinstance(item, exp.Alias) else item


def sources(select: Node) -> list[Node]:
    """What stands in the FROM."""
    begin = select.args.get("from")
    joins = select.args.get("joins") or []
    return [*(begin.expressions if begin else []), *(join.this for join in joins)]


def quoted(name: str) -> str:
    return '"' + name.replace('"', '""') + '"'
