"""A set operator of the reference missing.

Students answer the first half of "those that .. and not ..".
"""
from __future__ import annotations

from collections.abc import Iterator

from classroom.edits.change import Change, Kind
from classroom.edits.families.sets import WORDS, bare_query
from classroom.edits.query import Query
from classroom.sql.tree import SETS, Node


def changes(node: Node, query: Query) -> Iterator[Change]:
    reference = query.vocabulary.reference
    if reference is None or node.parent is not None or not isinstance(reference.tree, SETS):
        return
    tree = reference.tree
    own = query.source(node)
    own = f"({own})" if isinstance(bare_query(node), SETS) else own
    word = WORDS[type(tree)]
    for part, is_last in ((tree.expression, True), (tree.this, False)):
        text = reference.source(bare_query(part))
        text = f"({text})" if isinstance(bare_query(part), SETS) else text
        made = f"{own} {word} {text}" if is_last else f"{text} {word} {own}"
        yield query.instead(node, f"{word} with {text} missing", Kind.OPERAND_MISSING, 6, made)
