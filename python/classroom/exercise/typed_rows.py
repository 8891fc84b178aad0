"""The rows of an exercise as a database has them, with the statements that make its tables."""
from __future__ import annotations

import re
import sqlite3
from collections.abc import Collection, Sequence
from dataclasses import dataclass, replace
from typing import Any, cast

from classroom.base.errors import Fault, shown
from classroom.exercise.rows import Cell, Cells, Foreign, Held, Pool, Row
from classroom.exercise.rules import rules_of
from classroom.sql.schema import Column, Table, Token, items_of, quoted, tables_of
from classroom.exercise.cells import cell, encoded

SQLITE, POSTGRESQL = PRODUCTS = ("sqlite", "postgresql")
SIGNS = frozenset("<>=!|")
# Of no product: SQLite, in which no column fills itself.
BIG = "BIGINT"
KINDS = {
    SQLITE: {"INTEGER": "INTEGER", BIG: "INTEGER"},
    POSTGRESQL: {"INTEGER": "integer", BIG: "bigint", "TEXT": 'text COLLATE "C"'},
    "": {"INTEGER": "INT", BIG: "INT"},
}
LEAST, MOST = -(1 << 31), (1 << 31) - 1  # of an integer in PostgreSQL
__all__ = [
    "POSTGRESQL",
    "PRODUCTS",
    "SQLITE",
    "Made",
    "Material",
    "from_json",
    "of_rows",
    "of_schema",
    "product_of",
    "to_json",
]


@dataclass(frozen=True)
class Made:
    """A view, or what else is made after the tables."""

    name: str
    statement: str
    query: str = ""  # of a view


@dataclass(frozen=True)
class Material:
    """Tables by the numbers that they have in the pool, and rows in the numbering of the CSV
    files."""

    product: str  # one of PRODUCTS
    pool: Pool
    statements: tuple[str, ...]  # one CREATE TABLE a table
    views: tuple[Made, ...] = ()
    before: str = ""  # of PostgreSQL, types that the tables need
    hidden: tuple[tuple[str, ...], ...] = ()  # a table's columns that schema.sql has not

    def names(self) -> list[str]:
        return [held.table.name for held in self.pool.held]


def product_of(word: str) -> str:
    """The product that an engine's word or connection names."""
    if word in (SQLITE, POSTGRESQL):
        return word
    if "=" in word or re.match("postgres(ql)?://", word):
        return POSTGRESQL
    raise Fault(
        f"engine: {shown(word)}: sqlite is wanted, or a connection as"
        " postgresql://USER@HOST/DATABASE"
    )


def of_schema(pool: Pool, product: str) -> Material:
    """The material of a schema.sql as `ratest` reads it, with its rows.

    Rows that break a CHECK or a NOT NULL stand in no part from then on, as no witness has them.
    """
    text = pool.schema.decode("utf-8", "replace")
    checks, filled, big = checks_of(text), filled_of(text), big_of(text)

    def statements(of: str) -> tuple[str, ...]:
        return tuple(
            statement(
                held,
                kinds_of(held, big[held.table.name]),
                rules.primary,
                checks[held.table.name],
                filled[held.table.name],
                of,
            )
            for held, rules in zip(pool.held, rules_of(text), strict=True)
        )

    broken: set[Row] = set()
    database = sqlite3.connect(":memory:")
    for at, (held, made) in enumerate(zip(pool.held, statements(""))):
        database.execute(made)
        put = (
            f"INSERT INTO {quoted(held.table.name)} VALUES"
            f" ({', '.join('?' * len(held.table.columns))})"
        )
        for row in sorted(row for row in pool.lawful if row.table == at):
            try:
                database.execute(put, held.rows[row.number])
            except (sqlite3.IntegrityError, OverflowError):
                broken.add(row)
    database.close()
    pool.lawful -= pool.with_sources(broken)
    return Material(product, pool, statements(product))


def of_rows(whole: Material, rows: Collection[Row]) -> Material:
    """The material of some rows, in their order."""
    pool = whole.pool
    kept = [[row.number for row in sorted(rows) if row.table == at] for at in range(len(pool.held))]
    made = Pool(
        pool.schema,
        [
            replace(held, rows=[held.rows[number] for number in numbers])
            for held, numbers in zip(pool.held, kept, strict=True)
        ],
    )
    made.lawful &= {
        Row(at, place)
        for at, numbers in enumerate(kept)
        for place, number in enumerate(numbers)
        if Row(at, number) in pool.lawful
    }
    return replace(whole, pool=made)


def statement(
    held: Held,
    kinds: Sequence[str],
    primary: Sequence[str],
    checks: Sequence[str],
    filled: Collection[str],
    product: str,
) -> str:
    words = KINDS[product]
    names = [quoted(column.name) for column in held.table.columns]
    items = [
        f"{name} {words.get(kind, kind)}{' NOT NULL' if column.name in filled else ''}"
        for name, column, kind in zip(names, held.table.columns, kinds)
    ]
    for key in held.keys:
        is_primary = [held.table.columns[place].name for place in key] == list(primary)
        items.append(
            f"{'PRIMARY KEY' if is_primary else 'UNIQUE'} ({', '.join(names[place] for place in key)})"
        )
    items += [f"CHECK ({check})" for check in checks]
    return f"CREATE TABLE {quoted(held.table.name)} ({', '.join(items)})"


def kinds_of(held: Held, big: Collection[str]) -> list[str]:
    """The kinds of the columns; an INTEGER is BIG where the schema says so, or a value needs more
    than 32 bits."""
    return [
        BIG
        if column.kind == "INTEGER"
        and (column.name in big or any(is_big(row[place]) for row in held.rows))
        else column.kind
        for place, column in enumerate(held.table.columns)
    ]


def is_big(value: Cell) -> bool:
    return isinstance(value, int) and not LEAST <= value <= MOST


def big_of(text: str) -> dict[str, set[str]]:
    """The columns of each table that the schema calls BIGINT."""
    found: dict[str, set[str]] = {table.name: set() for table in tables_of(text)}
    for name, items in items_of(text):
        found[name] |= {item[0].text for item in items if item[1:2] == [Token("word", BIG.lower())]}
    return found


def checks_of(text: str) -> dict[str, list[str]]:
    """The conditions of the CHECKs of each table, as SQL."""
    found: dict[str, list[str]] = {table.name: [] for table in tables_of(text)}
    for name, items in items_of(text):
        for item in items:
            for at, token in enumerate(item):
                if (
                    token == Token("word", "check")
                    and at + 1 < len(item)
                    and item[at + 1] == Token("other", "(")
                ):
                    found[name].append(condition(item, at + 2))
    return found


def filled_of(text: str) -> dict[str, set[str]]:
    """The columns of each table that are NOT NULL; those of a primary key are."""
    found: dict[str, set[str]] = {}
    rules = {
        table.name: rules for table, rules in zip(tables_of(text), rules_of(text), strict=True)
    }
    for name, items in items_of(text):
        found[name] = set(rules[name].primary)
        for item in items:
            words = [token.text if token.kind == "word" else "" for token in item]
            before_check = words[1 : words.index("check")] if "check" in words else words[1:]
            if ("not", "null") in zip(before_check, before_check[1:]) or ("not", "null") in zip(
                words[-2:], words[-1:]
            ):
                found[name].add(item[0].text)
    return found


def condition(item: Sequence[Token], at: int) -> str:
    """The tokens up to the parenthesis that ends a CHECK."""
    depth, words, before = 0, [], ""
    while at < len(item):
        token = item[at]
        depth += (token == Token("other", "(")) - (token == Token("other", ")"))
        if depth < 0:
            break
        word = quoted(token.text) if token.kind == "quoted" else token.text
        is_joined = token.kind == "other" and (
            token.text in SIGNS
            and before in SIGNS
            or token.text.isdigit()
            and (before.isdigit() or before == "-")
        )
        words.append(word if is_joined else f" {word}")
        before = token.text if token.kind == "other" else ""
        at += 1
    return "".join(words).strip()


def to_json(of: Material) -> dict[str, Any]:
    return {
        "product": of.product,
        "statements": list(of.statements),
        "before": of.before,
        "hidden": [list(names) for names in of.hidden],
        "lawful": [
            sorted(row.number for row in of.pool.lawful if row.table == at)
            for at in range(len(of.pool.held))
        ],
        "views": [[view.name, view.statement, view.query] for view in of.views],
        "tables": [
            {
                "name": held.table.name,
                "columns": [[column.name, column.kind] for column in held.table.columns],
                "rows": encoded(held.rows),
                "keys": encoded(held.keys),
                "foreigns": [
                    [list(foreign.places), foreign.table, list(foreign.to)]
                    for foreign in held.foreigns
                ],
            }
            for held in of.pool.held
        ],
    }


def from_json(text: dict[str, Any]) -> Material:
    held = [
        Held(
            Table(of["name"], tuple(Column(name, kind) for name, kind in of["columns"])),
            cast("list[Cells]", [tuple(map(cell, row)) for row in of["rows"]]),
            [tuple(key) for key in of["keys"]],
            [Foreign(tuple(places), table, tuple(to)) for places, table, to in of["foreigns"]],
        )
        for of in text["tables"]
    ]
    pool = Pool(b"", held)
    pool.lawful &= {
        Row(at, number) for at, numbers in enumerate(text["lawful"]) for number in numbers
    }
    return Material(
        text["product"],
        pool,
        tuple(text["statements"]),
        tuple(Made(*view) for view in text["views"]),
        text["before"],
        tuple(tuple(names) for names in text["hidden"]),
    )
