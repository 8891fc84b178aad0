"""Texts of a query that show, in one more column, which rows its own ORDER BY leaves in any order:
equal ranks by its keys."""
from __future__ import annotations

import sqlglot
from sqlglot import exp

from classroom.sql.ties import MOST_WORDS, is_kept, unaliased
from classroom.sql.tokens import tokens
from classroom.sql.tree import SETS, UNREAD, Node, nodes

RANK, ROWS = "ratest_rank", "ratest_rows"


def top(tree: Node) -> Node:
    """What has the ORDER BY of a query: of a compound its last SELECT has it, by sqlglot."""
    at = tree
    while isinstance(at, SETS) and not at.args.get("order"):
        at = at.expression
    return at if isinstance(at, exp.Select) else tree


def ranked(query: str, dialect: str) -> str | None:
    """The query with the rank of each row by its ORDER BY as the last column; None where it has
    none, or where the keys can't be written as a column. The caller holds what comes out against
    the query's own answer."""
    if len(list(tokens(query))) > MOST_WORDS:
        return None
    try:
        tree = sqlglot.parse_one(query, read=dialect)
        while isinstance(tree, (exp.Paren, exp.Subquery)) and not tree.args.get("order"):
            tree = tree.this
        if tree is None or not is_kept(query, tree, dialect):
            return None
        order = top(tree).args.get("order")
        if not order:
            return None
        made = inside(tree, order) if isinstance(tree, exp.Select) else None
        return str(made.sql(dialect, comments=False)) if made else around(query, tree, dialect)
    except UNREAD:
        return None


def inside(select: Node, order: Node) -> Node | None:
    """A SELECT with the rank among its columns."""
    made = select.copy()
    items = made.expressions
    keys = []
    for key in order.expressions:
        meant = shown(key.this, items)
        if meant is None and (made.args.get("distinct") or is_number(key.this)):
            return None
        new = key.copy()
        new.set("this", (meant or key.this).copy())
        keys.append(new)
    if any(isinstance(node, (exp.Window, exp.Select)) for key in keys for node in nodes(key)):
        return None
    made.set("expressions", [*items, rank(keys)])
    return made


def around(query: str, tree: Node, dialect: str) -> str | None:
    """A query as a table whose columns, by their names, are the keys."""
    at = tree
    while isinstance(at, SETS):
        at = at.this
    names = [item.alias_or_name for item in at.expressions]
    is_wide = any(map(is_star, at.expressions))
    keys = []
    for key in top(tree).args["order"].expressions:
        of = key.this
        if is_number(of):
            place = int(of.name) - 1
            name = None if is_wide else named(at.expressions[place])
        else:
            is_shown = isinstance(of, exp.Column) and (is_wide or of.name in names)
            name = of.this.copy() if is_shown else None
        if name is None:
            return None
        new = key.copy()
        new.set("this", exp.Column(this=name, table=exp.to_identifier(ROWS)))
        keys.append(new)
    return f"SELECT {ROWS}.*, {rank(keys).sql(dialect)} FROM ({query}\n) AS {ROWS}"


def named(item: Node) -> Node | None:
    """The name of a column."""
    if isinstance(item, exp.Alias):
        made = item.args["alias"]
    else:
        made = item.this if isinstance(item, exp.Column) else None
    return made.copy() if isinstance(made, exp.Identifier) else None


def shown(key: Node, items: list[Node]) -> Node | None:
    """The expression of the column that a key is: by its number, its alias or its own text."""
    if is_number(key):
        place = int(key.name) - 1
        if any(is_star(item) for item in items[: place + 1]):
            return None
        return unaliased(items[place])
    if isinstance(key, exp.Column):
        for item in items:
            if isinstance(item, exp.Alias) and not key.args.get("table"):
                if item.alias.lower() == key.name.lower():
                    return item.this
        if any(map(is_star, items)):
            return key
    return next((key for item in items if unaliased(item) == key), None)


def is_number(key: Node) -> bool:
    return isinstance(key, exp.Literal) and not key.is_string


def is_star(item: Node) -> bool:
    inner = item.this if isinstance(item, exp.Column) else item
    return isinstance(inner, exp.Star)


def rank(keys: list[Node]) -> Node:
    return exp.alias_(
        exp.Window(
            this=exp.Anonymous(this="DENSE_RANK", expressions=[]),
            order=exp.Order(expressions=keys),
        ),
        RANK,
    )
