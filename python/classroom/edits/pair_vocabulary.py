"""The vocabulary of a reference and an answer over a schema."""
from __future__ import annotations

from classroom.edits.query import Query
from classroom.sql.tree import parsed
from classroom.edits.vocabulary import (
    Vocabulary,
    classes_of,
    compared_in,
    constants_of,
    never_null,
    of_tables,
)
from classroom.sql.schema import tables_of


class Words:
    """Of a reference, to which those of an answer are added."""

    def __init__(self, schema: str, reference: str) -> None:
        """A Fault where sqlglot doesn't read the reference."""
        tables = tables_of(schema)
        self.tables = of_tables(tables).tables
        self.classes = classes_of(schema, tables)
        self.whole = never_null(schema, tables)
        self.reference = Query.of(reference, of_tables(tables))
        numbers, texts = constants_of([self.reference.tree])
        self.wanted: frozenset[int | str] = frozenset([*numbers, *texts])
        self.plain = self.of(reference)

    def of(self, answer: str) -> Vocabulary:
        """A Fault where sqlglot doesn't read the answer."""
        trees = (self.reference.tree, parsed(answer))
        numbers, texts = constants_of(trees)
        return Vocabulary(
            self.tables,
            self.classes,
            compared_in(trees, self.tables),
            self.whole,
            numbers,
            texts,
            self.wanted,
            self.reference,
        )


def vocabulary(schema: str, reference: str, answer: str) -> Vocabulary:
    """The columns that mean the same by foreign keys, the constants and comparisons of both
    queries, and the conditions of the reference. A Fault where sqlglot doesn't read one of them."""
    return Words(schema, reference).of(answer)
