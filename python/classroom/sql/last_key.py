"""The keys that an ORDER BY lacks, so that a LIMIT always takes the same rows."""
from __future__ import annotations

import sqlglot
from sqlglot import exp

from classroom.sql.tree import UNREAD

from classroom.sql.ranks import is_star, shown
from classroom.sql.ties import chooses, unaliased


def last_keys(query: str, dialect: str) -> str:
    """The columns of a query that its ORDER BY doesn't have, where its LIMIT alone chooses rows:
    with them as last keys tied rows are equal. Empty where that isn't so, or isn't known."""
    try:
        tree = sqlglot.parse_one(query, read=dialect)
        order = tree.args.get("order") if isinstance(tree, exp.Select) else None
        if not order or not (tree.args.get("limit") or tree.args.get("offset")):
            return ""
        items = tree.expressions
        keys = [shown(key.this, items) or key.this for key in order.expressions]
        rest = tree.copy()
        for part in ("limit", "offset"):
            rest.set(part, None)
        if any(map(is_star, items)) or chooses(rest):
            return ""
        left = [item for item in items if unaliased(item) not in keys]
        return ", ".join(
            item.alias if isinstance(item, exp.Alias) else str(item.sql(dialect)) for item in left
        )
    except UNREAD:
        return ""
