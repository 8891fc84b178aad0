"""A shop's rows over four tables, and ways to ask about them."""
from __future__ import annotations

import random
from typing import Any

from classroom.exercise.rows import Cell, Foreign, Held, Pool, Row
from classroom.sql.schema import Column, Table
from classroom.engines import child
from classroom.exercise.typed_rows import SQLITE, Material, of_schema
from classroom.exercise.part_masks import Parts
from classroom.verdict.verdict import Verdict

SCHEMA = """CREATE TABLE customer (id INTEGER PRIMARY KEY, name TEXT, city TEXT);
CREATE TABLE product (sku TEXT PRIMARY KEY, kind TEXT, price INTEGER CHECK (price >= 0));
CREATE TABLE orders (no INTEGER PRIMARY KEY, customer INTEGER REFERENCES customer, day TEXT);
CREATE TABLE item (ord INTEGER REFERENCES orders, sku TEXT REFERENCES product, qty INTEGER, PRIMARY KEY (ord, sku));
"""
CUSTOMER, PRODUCT, ORDERS, ITEM = range(4)
CITIES, KINDS = ("Bergen", "Oslo", None), ("toy", "book", "tool")


def pool(
    customers: int = 5, products: int = 4, orders: int = 6, items: int = 8, seed: str = "shop"
) -> Pool:
    """So many rows, the same of the same seed."""
    chance = random.Random(seed)
    integer, text = "INTEGER", "TEXT"

    def held(
        name: str,
        columns: dict[str, str],
        rows: list[tuple[Cell, ...]],
        key: tuple[int, ...],
        foreigns: list[Foreign],
    ) -> Held:
        return Held(
            Table(name, tuple(Column(*of) for of in columns.items())), rows, [key], foreigns
        )

    people: list[tuple[Cell, ...]] = [
        (at, f"{chance.choice('ABCD')}nn", chance.choice(CITIES)) for at in range(1, customers + 1)
    ]
    goods: list[tuple[Cell, ...]] = [
        (f"p{at}", chance.choice(KINDS), chance.choice([None, 1, 2, 3, 5, 8]))
        for at in range(products)
    ]
    bought: list[tuple[Cell, ...]] = [
        (
            at,
            chance.choice([None, *range(1, customers + 1)]) if customers else None,
            f"2024-0{chance.randint(1, 3)}-01",
        )
        for at in range(1, orders + 1)
    ]
    pairs = [(order, good) for order in range(1, orders + 1) for good in range(products)]
    lines: list[tuple[Cell, ...]] = [
        (order, f"p{good}", chance.randint(1, 3))
        for order, good in chance.sample(pairs, min(items, len(pairs)))
    ]
    return Pool(
        SCHEMA.encode(),
        [
            held("customer", {"id": integer, "name": text, "city": text}, people, (0,), []),
            held("product", {"sku": text, "kind": text, "price": integer}, goods, (0,), []),
            held(
                "orders",
                {"no": integer, "customer": integer, "day": text},
                bought,
                (0,),
                [Foreign((1,), CUSTOMER, (0,))],
            ),
            held(
                "item",
                {"ord": integer, "sku": text, "qty": integer},
                lines,
                (0, 1),
                [Foreign((0,), ORDERS, (0,)), Foreign((1,), PRODUCT, (0,))],
            ),
        ],
    )


def material(product: str = SQLITE, **sizes: Any) -> Material:
    return of_schema(pool(**sizes), product)


def tried(reference: str, answer: str, of: Material | None = None, **more: Any) -> Verdict:
    """The verdict of the child, in this process."""
    return child.tried(of or material(), {"reference": reference, "answer": answer, **more})


def all_lawful(parts: Parts) -> list[int]:
    """Every lawful part, by the definition."""
    assert len(parts.rows) <= 16
    return [mask for mask in range(1 << len(parts.rows)) if parts.is_lawful(mask)]


def rows_of(parts: Parts, mask: int) -> list[Row]:
    return [row for at, row in enumerate(parts.rows) if mask >> at & 1]
