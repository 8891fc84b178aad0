"""That a query answers on a part as on the union of the tuples in it: random queries over all
lawful parts.

This is what a witness that is called the smallest by joins rests on.
"""
from __future__ import annotations

import os
import random
from collections import Counter

import pytest
import shop
from hypothesis import HealthCheck, given, reject, settings
from hypothesis import strategies as st

from classroom.engines import join_tuples as joins
from classroom.engines.join_conditions import Schema
from classroom.verdict.compare import rounded
from classroom.engines.engine import Refused
from classroom.exercise.part_masks import Parts
from classroom.engines.counterexample import Search
from classroom.engines.looks import Wanted
from classroom.engines.sqlite import Sqlite

# `TRIAL_PAIRS=20000` draws so many pairs of queries.
PAIRS = int(os.environ.get("TRIAL_PAIRS", "300"))
COLUMNS = {
    "customer": ("id", "name", "city"),
    "product": ("sku", "kind", "price"),
    "orders": ("no", "customer", "day"),
    "item": ("ord", "sku", "qty"),
}
ON = {
    ("customer", "orders"): "{1}.customer = {0}.id",
    ("orders", "item"): "{1}.ord = {0}.no",
    ("product", "item"): "{1}.sku = {0}.sku",
}
VALUES = ("1", "2", "'toy'", "'Bergen'", "'2024-01-01'", "NULL", "'Ann'")


class Drawn:
    """Draws the text of one query."""

    def __init__(self, draw: st.DrawFn) -> None:
        self.draw = draw
        self.count = 0

    def one(self, *of: str) -> str:
        return self.draw(st.sampled_from(of))

    def yes(self) -> bool:
        return self.number(0, 1) == 1

    def number(self, least: int, most: int) -> int:
        return self.draw(st.integers(least, most))

    def alias(self) -> str:
        self.count += 1
        return f"t{self.count}"

    def query(self, outer: list[tuple[str, str]], depth: int) -> str:
        text = self.select(outer, depth)
        if depth == 0 and self.number(0, 5) == 0:
            text = f"{text} {self.one('UNION', 'UNION ALL', 'EXCEPT', 'INTERSECT')} {self.select(outer, depth)}"
        if depth == 0 and self.number(0, 5) == 0:
            name = self.one("w", "customer", "item")
            text = (
                f"WITH {name} AS (SELECT o.no AS a, o.customer AS id, o.day AS qty, o.no AS ord"
                f" FROM orders o) {text}"
                if name != "w"
                else f"WITH w AS ({self.select([], 1)}) SELECT count(*), 1 FROM w UNION ALL {text}"
            )
        return text

    def select(self, outer: list[tuple[str, str]], depth: int) -> str:
        begin, tables = self.begin(depth)
        seen = tables + outer
        where = f" WHERE {self.condition(seen, depth)}" if self.yes() else ""
        kind = self.number(0, 3)
        if kind == 0:
            return f"SELECT {self.column(seen)}, {self.column(tables)} FROM {begin}{where}"
        if kind == 1:
            return (
                f"SELECT DISTINCT {self.column(tables)}, {self.column(tables)} FROM {begin}{where}"
            )
        value = self.one(
            "count(*)",
            f"count({self.column(tables)})",
            f"max({self.column(tables)})",
            f"count(DISTINCT {self.column(tables)})",
        )
        if kind == 2:
            return f"SELECT {value}, 1 FROM {begin}{where}"
        key = self.column(tables)
        having = (
            f" HAVING count(*) {self.one('>', '=', '<')} {self.one('1', '2')}" if self.yes() else ""
        )
        return f"SELECT {key}, {value} FROM {begin}{where} GROUP BY {key}{having}"

    def begin(self, depth: int) -> tuple[str, list[tuple[str, str]]]:
        first = self.one(*COLUMNS)
        alias = self.alias()
        tables = [(first, alias)]
        text = f"{first} {alias}"
        for _ in range(self.number(0, 2)):
            form = self.number(0, 9)
            table, name = self.one(*COLUMNS), self.alias()
            if form == 0:
                text += f" CROSS JOIN {table} {name}"
                tables.append((table, name))
            elif form == 1 and depth < 2:
                columns = f"SELECT {', '.join(COLUMNS[table])} FROM {table}"
                text += (
                    f" {self.one('JOIN', 'LEFT JOIN')} ({columns}) {name} ON"
                    f" {self.joining(tables, (table, name))}"
                )
                tables.append((table, name))
            elif form == 2:
                inner, other = self.one(*COLUMNS), self.alias()
                text += (
                    f" {self.one('JOIN', 'LEFT JOIN')} ({table} {name} JOIN {inner} {other} ON"
                    f" {self.joining([(table, name)], (inner, other))}) ON"
                    f" {self.joining(tables, (table, name))}"
                )
                tables += [(table, name), (inner, other)]
            elif form == 3:
                text += f" NATURAL JOIN {table} {name}"
                tables.append((table, name))
            elif form in (4, 5, 6):
                text += f" LEFT JOIN {table} {name} ON {self.joining(tables, (table, name))}"
                tables.append((table, name))
            elif form == 7 and first == "product":
                text += f" {self.one('JOIN', 'LEFT JOIN')} item {name} USING (sku)"
                tables.append(("item", name))
            else:
                text += f" JOIN {table} {name} ON {self.joining(tables, (table, name))}"
                tables.append((table, name))
        return text, tables

    def joining(self, tables: list[tuple[str, str]], new: tuple[str, str]) -> str:
        for table, alias in tables:
            for pair, at in (
                ((table, new[0]), (alias, new[1])),
                ((new[0], table), (new[1], alias)),
            ):
                if pair in ON and self.number(0, 3):
                    more = (
                        f" {self.one('AND', 'OR')} {self.simple([*tables, new])}"
                        if self.number(0, 3) == 0
                        else ""
                    )
                    return ON[pair].format(*at) + more
        return self.simple([*tables, new])

    def column(self, tables: list[tuple[str, str]]) -> str:
        table, alias = self.draw(st.sampled_from(tables))
        return f"{alias}.{self.one(*COLUMNS[table])}"

    def simple(self, tables: list[tuple[str, str]]) -> str:
        left = self.column(tables)
        form = self.number(0, 7)
        if form == 0:
            return f"{left} IS {self.one('', 'NOT ')}NULL"
        if form == 1:
            return (
                f"{left} {self.one('', 'NOT ')}LIKE"
                f" {self.one(chr(39) + 'B%' + chr(39), chr(39) + '%o%' + chr(39))}"
            )
        if form == 2:
            return (
                f"{left} {self.one('', 'NOT ')}BETWEEN {self.one(*VALUES)} AND {self.one(*VALUES)}"
            )
        if form == 3:
            return f"{left} {self.one('', 'NOT ')}IN ({self.one(*VALUES)}, {self.one(*VALUES)})"
        if form == 4:
            return f"coalesce({left}, 1) = {self.one('1', '2')}"
        right = self.column(tables) if self.yes() else self.one(*VALUES)
        return f"{left} {self.one('=', '<>', '<', '>=')} {right}"

    def condition(self, tables: list[tuple[str, str]], depth: int) -> str:
        form = self.number(0, 7)
        if depth < 2 and form == 0:
            return f"{self.one('', 'NOT ')}EXISTS ({self.query(tables, depth + 1)})"
        if depth < 2 and form == 1:
            _, alias = tables[0]
            table = self.one(*COLUMNS)
            name = self.alias()
            return (
                f"{self.column(tables)} {self.one('', 'NOT ')}IN (SELECT"
                f" {name}.{self.one(*COLUMNS[table])} FROM {table} {name} WHERE"
                f" {self.condition([(table, name), *tables], depth + 1)})"
            )
        if depth < 2 and form == 2:
            table, name = self.one(*COLUMNS), self.alias()
            return (
                f"(SELECT count(*) FROM {table} {name} WHERE"
                f" {self.condition([(table, name), *tables], depth + 1)})"
                f" {self.one('=', '>')} {self.one('0', '1')}"
            )
        if form == 3:
            return (
                f"({self.simple(tables)} {self.one('AND', 'OR')} {self.condition(tables, depth)})"
            )
        return self.simple(tables)


@st.composite
def queries(draw: st.DrawFn) -> str:
    return Drawn(draw).query([], 0)


@pytest.mark.skipif(PAIRS < 1, reason="no pairs are wanted")
@settings(
    max_examples=PAIRS, deadline=None, suppress_health_check=list(HealthCheck), derandomize=True
)
@given(queries(), queries(), st.integers(0, 9))
def test_a_part_answers_as_the_union_of_the_tuples_in_it(
    first: str, second: str, seed: int
) -> None:
    of = shop.material(customers=2, products=2, orders=3, items=3, seed=str(seed))
    parts = Parts(of.pool)
    try:
        engine = Sqlite(of, parts, first, second)
    except Refused:  # a name that a WITH hides
        reject()
    search = Search(engine, parts, of, (first, second), Wanted())
    units, _ = search.units()
    for part in shop.all_lawful(parts):
        union = 0
        for unit in units:
            if unit & ~part == 0:
                union |= unit
        assert parts.is_lawful(union)
        if union == part:
            continue
        for whole, less in zip(engine.answers(part), engine.answers(union)):
            assert Counter(rounded(whole.lines)) == Counter(rounded(less.lines)), (
                first,
                second,
                part,
                union,
            )
    engine.close()


UNDERSTOOD = [
    (
        (
            "SELECT c.name FROM customer c JOIN orders o ON o.customer = c.id WHERE o.day LIKE"
            " '2024-01%'"
        ),
        1,
        (),
    ),
    (
        (
            "SELECT c.id, count(o.no) FROM customer c LEFT JOIN orders o ON o.customer = c.id GROUP"
            " BY c.id"
        ),
        2,
        (),
    ),
    (
        (
            "SELECT c.id, i.sku FROM customer c LEFT JOIN orders o ON o.customer = c.id LEFT JOIN"
            " item i ON i.ord = o.no"
        ),
        3,
        (),
    ),
    (
        "SELECT name FROM customer WHERE NOT EXISTS (SELECT * FROM orders WHERE customer = id)",
        2,
        (),
    ),
    ("SELECT customer FROM orders GROUP BY customer HAVING count(*) > 1", 1, ()),
    ("SELECT kind FROM product WHERE sku IN (SELECT sku FROM item WHERE qty > 1)", 2, ()),
    (
        (
            "SELECT * FROM (SELECT kind, avg(price) a FROM product GROUP BY kind) x JOIN product p"
            " ON p.kind = x.kind"
        ),
        2,
        (),
    ),
    # Each row alone, where a FROM or a name isn't understood.
    ("SELECT * FROM customer NATURAL JOIN product", 0, ("customer", "product")),
    (
        "SELECT c.id FROM customer c FULL JOIN orders o ON o.customer = c.id",
        0,
        ("customer", "orders"),
    ),
    (
        "WITH customer AS (SELECT customer AS id FROM orders) SELECT count(*) FROM customer",
        1,
        ("customer",),
    ),
    ("SELECT count(*) FROM product WHERE sku IN item", 1, ("item",)),
    (
        (
            "SELECT count(*) FROM customer c JOIN (orders o JOIN item i ON i.ord = o.no) ON"
            " o.customer = c.id"
        ),
        None,
        ("orders", "item"),
    ),
    ("SELECT count(*) FROM main.orders", None, ("orders",)),
    ("SELECT SELECT", 0, ()),
]


@pytest.mark.parametrize("text, count, alone", UNDERSTOOD)
def test_what_is_understood(text: str, count: int | None, alone: tuple[str, ...]) -> None:
    pool = shop.pool()
    names = [held.table.name for held in pool.held]
    schema = Schema(
        names, [frozenset(column.name for column in held.table.columns) for held in pool.held]
    )
    found = joins.understood([text], schema, "sqlite")
    assert count is None or len(found.tuples) == count
    assert set(alone) <= {names[at] for at in found.alone}
    if count and not alone:
        assert not found.alone


def test_fewer_parts_than_all_have_to_be_tried() -> None:
    of = shop.material(customers=20, products=10, orders=30, items=40)
    parts = Parts(of.pool)
    text = (
        "SELECT c.name FROM customer c JOIN orders o ON o.customer = c.id JOIN item i ON i.ord ="
        " o.no WHERE i.qty > 2"
    )
    engine = Sqlite(of, parts, text, text)
    units, is_joined = Search(engine, parts, of, (text, text), Wanted()).units()
    assert is_joined and 0 < len(units) <= 40 and all(3 <= unit.bit_count() <= 4 for unit in units)


def test_order_at_the_top() -> None:
    for text, is_ordered in (
        ("SELECT a FROM t ORDER BY a", True),
        ("SELECT a FROM (SELECT a FROM t ORDER BY a) x", False),
        ("SELECT rank() OVER (ORDER BY a) FROM t", False),
        ("SELECT 1 UNION SELECT 2 ORDER BY 1", True),
        ("SELECT a FROM t -- ORDER BY a", False),
        ("WITH x AS (SELECT 1 a) SELECT a FROM x ORDER BY a", True),
    ):
        assert joins.is_ordered(text, "sqlite") == is_ordered, text


def test_the_seed_is_fixed() -> None:
    parts = Parts(shop.pool())
    whole = (1 << len(parts.rows)) - 1
    first, second = (parts.random_part(whole, 5, random.Random("rows")) for _ in range(2))
    assert first == second
