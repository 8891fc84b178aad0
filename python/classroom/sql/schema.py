"""The tables and columns of a `schema.sql`, as the package `ratest` reads them."""
from __future__ import annotations

from classroom.base.errors import Fault
from ratest import schema
from ratest.schema import (
    MARK,
    PLAIN,
    RESERVED,
    Column,
    Table,
    Token,
    items_of,
    literal,
    marked,
    quoted,
    spelled,
    tokens,
    unmarked,
)

__all__ = [
    "MARK",
    "MOST_ROWS",
    "PLAIN",
    "RESERVED",
    "Column",
    "Table",
    "Token",
    "items_of",
    "literal",
    "marked",
    "quoted",
    "spelled",
    "tables_of",
    "tokens",
    "unmarked",
]

MOST_ROWS = 2000  # over all tables, that `ratest` reads


def tables_of(text: str) -> tuple[Table, ...]:
    """The tables of a schema in its order; a Fault where it can't be one."""
    try:
        return schema.tables_of(text)
    except schema.NoSchema as fault:
        raise Fault(f"schema.sql: {fault}") from None
