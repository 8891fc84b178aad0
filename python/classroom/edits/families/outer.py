"""LEFT JOIN for JOIN, and JOIN for an outer join.

Students lose who has nothing to be joined with, or bring them in where only pairs are asked for.
"""
from __future__ import annotations

import re
from collections.abc import Iterator

from sqlglot import exp

from classroom.edits.change import Change, Kind
from classroom.edits.query import Query
from classroom.sql.tree import Node

WORDS = re.compile(r"(?i)(inner\s+)?((left|right|full)(\s+outer)?\s+)?join\b")


def changes(node: Node, query: Query) -> Iterator[Change]:
    if not isinstance(node, exp.Join) or not (node.args.get("on") or node.args.get("using")):
        return
    span = query.span(node)
    found = WORDS.match(query.text, span.begin)
    if not found:
        return
    if found[3]:
        yield query.instead(
            node,
            f"JOIN for {found[3].upper()} JOIN",
            Kind.JOIN,
            2,
            f"JOIN{query.text[found.end():span.end]}",
        )
    else:
        yield query.instead(
            node, "LEFT JOIN for JOIN", Kind.JOIN, 2, f"LEFT JOIN{query.text[found.end():span.end]}"
        )
