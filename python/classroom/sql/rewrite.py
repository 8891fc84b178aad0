"""A query in SQLite's words, where it has words of PostgreSQL or of the standard that SQLite doesn't
know.

A word that SQLite knows keeps SQLite's meaning: LIKE without regard to case, NULL before all values.
`docs/REFERENCE.md` lists what is rewritten."""
from __future__ import annotations

from collections import Counter
from typing import Any

import sqlglot
from sqlglot import exp
from sqlglot.dialects.postgres import Postgres
from sqlglot.errors import SqlglotError

from classroom.sql import rewrite_queries as queries
from classroom.sql import rewrite_values as values
from classroom.sql.dialect import for_sqlite, with_sets
from classroom.sql.lookup import is_cut
from classroom.sql.public_names import PUBLIC
from classroom.sql.rewrite_parts import MOST, Cannot, Columns, Names, is_star, sql, value
from classroom.sql.tokens import Dialect, tokens
from classroom.sql.tree import COMPARISONS, SETS, Node

# Words that sqlglot leaves out or writes otherwise without a change of the meaning.
MAY_GO = frozenset(
    "as asc inner outer some symmetric row rows next first last only nulls distinct all recursive"
    " integer int4 int8 float8 float double precision real varchar character varying numeric"
    " decimal bool date timestamp position substring in from for cast extract table offset"
    " fetch natural is not true false tinyint".split()
)
# What PostgreSQL computes otherwise, or what SQLite would compute in an order of its own.
REFUSED = (
    exp.GroupConcat,
    exp.ArrayAgg,
    exp.Interval,
    exp.SimilarTo,
    exp.RegexpLike,
    exp.RegexpILike,
    exp.Lock,
    exp.Pivot,
    exp.TableSample,
)
# What sqlglot raises at odd texts: RuntimeError where a text has no end, the others by its trees.
FAULTS = (
    Cannot,
    SqlglotError,
    RuntimeError,
    ValueError,
    TypeError,
    AttributeError,
    LookupError,
)


class SqliteOrder(Postgres):
    """PostgreSQL's words with SQLite's order of NULL: what a query says of it is kept."""

    null_ordering = "nulls_are_small"


def rewritten(text: str, columns: Columns) -> str | None:
    """The text in SQLite's words; None where nothing in it has a rewriting that is the same for
    certain."""
    if len(text) > MOST or is_cut(text):
        return None
    try:
        made = _Rewriter(text, columns).text()
    except FAULTS:
        made = None
    return made or with_sets(text)


class _Rewriter:
    def __init__(self, text: str, columns: Columns) -> None:
        self.own, self.columns, self.names = text, columns, Names(text)
        self.ctes: set[str] = set()
        self.kinds = values.Kinds(columns, set())
        self.is_changed = False

    def text(self) -> str | None:
        read = whole_table(self.own) or marked(self.own)
        self.is_changed = read != self.own
        found: Any = sqlglot.parse_one(read, read=SqliteOrder)
        if found is None or not isinstance(found, (exp.Select, exp.Subquery, exp.Values, *SETS)):
            return None
        if not keeps_words(self.own, found):
            return None
        tree: Any = queries.grouped(found)
        self.look(tree)
        if queries.laterals(tree):
            self.is_changed = True
        # Parts before what they stand in; a new node has nothing more to be rewritten in it.
        for node in reversed([node for node, _, _ in tree.walk(bfs=False)]):
            new = self.new(node)
            if new is None:
                continue
            self.is_changed = True
            if node is tree:
                tree = new
            else:
                node.replace(new)
        if not self.is_changed:
            return None
        return for_sqlite(sql(tree))

    def look(self, tree: Any) -> None:
        """What the query names itself; it is refused where SQLite has another order of columns."""
        given = {one.alias.lower() for one in tree.find_all(exp.Alias)}
        for one in tree.find_all(exp.TableAlias):
            given |= {column.name.lower() for column in one.args.get("columns") or []}
        self.ctes = {one.alias.lower() for one in tree.find_all(exp.CTE)}
        self.kinds = values.Kinds(self.columns, given)
        for select in tree.find_all(exp.Select):
            if any(map(is_star, select.expressions)) and any(
                join.args.get("natural") or join.args.get("using")
                for join in select.args.get("joins") or []
            ):
                raise Cannot("all columns of a natural join")

    def new(self, node: Any) -> Node | None:
        """What stands for a node; None where it stays."""
        if isinstance(node, REFUSED):
            raise Cannot(type(node).__name__)
        if isinstance(node, COMPARISONS):
            return values.quantified(node, self.names)
        if isinstance(node, exp.Between):
            return values.symmetric(node)
        if isinstance(node, exp.ILike):
            return values.without_case(node)
        if isinstance(node, exp.Cast):
            return None if is_extracted(node) else self.kinds.cast(node)
        if isinstance(node, exp.Extract):
            return self.kinds.extracted(node.this.name.upper(), node.expression)
        if isinstance(node, exp.Anonymous) and str(node.this).upper() == "DATE_PART":
            part, of = node.expressions
            if not isinstance(part, exp.Literal):
                raise Cannot("a part that is no text")
            return self.kinds.extracted(part.name.upper(), of)
        if isinstance(node, values.SUMS):
            return values.difference(node)
        if isinstance(node, (exp.Func, exp.Anonymous)):
            return values.function(node)
        return self.new_query(node)

    def new_query(self, node: Any) -> Node | None:
        if isinstance(node, exp.Lateral):
            raise Cannot("LATERAL")
        if isinstance(node, exp.Fetch):
            count = node.args.get("count")
            return exp.Limit(expression=count.copy() if count else exp.Literal.number(1))
        if isinstance(node, (exp.Except, exp.Intersect)) and node.args.get("distinct") is False:
            return with_limit(queries.bags(node, self.names))
        if isinstance(node, exp.Select):
            distinct, group = node.args.get("distinct"), node.args.get("group")
            if distinct and distinct.args.get("on"):
                return with_limit(queries.first_of_each(node, self.names))
            if group and any(group.args.get(key) for key in ("rollup", "cube", "grouping_sets")):
                return queries.grouping_sets(node)
        if isinstance(node, (exp.Select, *SETS)):
            if node.args.get("offset") and not node.args.get("limit"):
                return with_limit(node.copy())
            return None
        if isinstance(node, exp.Dot) and isinstance(node.this, exp.Column):
            # Of a schema's table a column.
            self.look_for_schema(node.this.args.get("table"), node.this.name)
            return exp.Column(this=node.expression.copy(), table=node.this.this.copy())
        if isinstance(node, exp.Table):
            schema = node.args.get("db")
            if schema:
                self.look_for_schema(schema, node.name)
            copy = node.copy()
            copy.set("db", None)
            return self.with_names(copy, node) or (copy if schema else None)
        if isinstance(node, (exp.Subquery, exp.Values)):
            return self.with_names(node, node)
        return None

    def look_for_schema(self, schema: Any, table: str) -> None:
        if schema is None or schema.name.lower() != PUBLIC or table.lower() in self.ctes:
            raise Cannot("another schema")

    def with_names(self, node: Any, old: Any) -> Node | None:
        alias = node.args.get("alias")
        if not isinstance(alias, exp.TableAlias) or not alias.args.get("columns"):
            return None
        if isinstance(old.parent, exp.CTE):
            return None
        return queries.source(node, self.columns, self.ctes)


def with_limit(node: Any) -> Any:
    """SQLite has no OFFSET without a LIMIT."""
    if node.args.get("offset") and not node.args.get("limit"):
        node.set("limit", exp.Limit(expression=value("-1")))
    return node


def is_extracted(node: Any) -> bool:
    """Whether a cast says of what a part is taken."""
    parent = node.parent
    while isinstance(parent, exp.Paren):
        parent = parent.parent
    return isinstance(parent, exp.Extract) or (
        isinstance(parent, exp.Anonymous) and str(parent.this).upper() == "DATE_PART"
    )


def whole_table(text: str) -> str:
    """`TABLE t` as a SELECT; "" of another text."""
    words = [one for one in tokens(text, Dialect.POSTGRESQL) if one.word != ";"]
    if len(words) == 2 and words[0].word == "table" and words[1].kind in ("word", "quoted"):
        return f"SELECT * FROM {words[1].text}"
    return ""


def marked(text: str) -> str:
    """The text with NOT for SYMMETRIC, which sqlglot takes for a name; BETWEEN NOT is no SQL."""
    found = tokens(text, Dialect.POSTGRESQL)
    for one, two in reversed(list(zip(found, found[1:]))):
        if one.word == "between" and two.word == "not":
            raise Cannot("BETWEEN NOT")
        if one.word == "between" and two.word == "symmetric":
            text = f"{text[: two.begin]}NOT{text[two.end :]}"
    return text


def keeps_words(text: str, tree: Any) -> bool:
    """Whether sqlglot's tree still has all names, numbers and texts, and all words that matter."""
    written = str(tree.sql(SqliteOrder, comments=False))
    counts = [
        Counter(
            one.name.lower() if one.kind in ("word", "quoted") else one.text
            for one in tokens(given, Dialect.POSTGRESQL)
            if one.kind != "sign"
        )
        for given in (text, written)
    ]
    return all(word in MAY_GO for word in counts[0] - counts[1])
