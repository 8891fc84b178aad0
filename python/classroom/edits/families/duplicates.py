"""DISTINCT of a SELECT dropped and added, and UNION ALL for UNION and back.

Students forget that a join brings a row more than once, or drop rows that are equal and count.
"""
from __future__ import annotations

import re
from collections.abc import Iterator

from sqlglot import exp

from classroom.edits.change import Change, Kind
from classroom.edits.query import Query
from classroom.sql.spans import Span
from classroom.sql.tree import Node

UNION = re.compile(r"(?i)\bunion(\s+all)?\b")


def changes(node: Node, query: Query) -> Iterator[Change]:
    if isinstance(node, exp.Select) and node.expressions:
        whole, first = query.span(node), query.span(node.expressions[0]).begin
        head = query.text[whole.begin : first]
        found = re.search(r"(?i)\bselect\s+(distinct\s+)?(?=\Z)", head)
        if found and not node.args.get("group"):
            place = Span(whole.begin + found.start(), first)
            words, text = (
                ("DISTINCT dropped", "SELECT ")
                if found[1]
                else ("DISTINCT added", "SELECT DISTINCT ")
            )
            yield Change(words, Kind.DISTINCT, 1, place, text, place)
    if type(node) is exp.Union:
        begin, end = query.span(node.this).end, query.span(node.expression).begin
        word = UNION.search(query.text, begin, end)
        if word:
            words, text = (
                ("UNION for UNION ALL", "UNION")
                if word[1]
                else ("UNION ALL for UNION", "UNION ALL")
            )
            place = Span(word.start(), word.end())
            yield Change(words, Kind.DISTINCT, 1, place, text, place)
