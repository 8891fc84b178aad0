"""Orders of answers by the reference's own keys, over both databases."""
from __future__ import annotations

import itertools
import random

import pytest
from roles import Roles
from trying import Rows, verdict

from classroom.exercise.typed_rows import POSTGRESQL, SQLITE
from classroom.verdict.compare import LEFT_OPEN, ORDER, Line
from classroom.verdict.orders import is_bound, is_in_order, runs
from classroom.verdict.verdict import Differs, NoDifference

SCHEMA = "CREATE TABLE item (id INTEGER PRIMARY KEY, name TEXT, city TEXT, price INTEGER);"
ITEMS: Rows = [
    (1, "c", "X", 5),
    (2, "a", "Y", 5),
    (3, "b", "X", 5),
    (4, "d", "Y", 9),
    (5, "e", None, None),
]
COUNTED = "SELECT city, COUNT(*) FROM item GROUP BY city"
BOTH = "SELECT city AS c FROM item UNION SELECT name FROM item"


@pytest.fixture(params=[SQLITE, POSTGRESQL])
def roles_or_none(request: pytest.FixtureRequest) -> Roles | None:
    return request.getfixturevalue("roles") if request.param == POSTGRESQL else None


# By SQL's meaning: rows with equal keys may come in any order.
FINE = [
    (f"{COUNTED} ORDER BY COUNT(*)", f"{COUNTED} ORDER BY COUNT(*), city DESC"),
    (f"{COUNTED} ORDER BY 2", f"{COUNTED} ORDER BY COUNT(*), city"),
    (
        "SELECT name, price AS p FROM item ORDER BY p DESC",
        "SELECT name, price FROM item ORDER BY price DESC, name DESC",
    ),
    (
        "SELECT name FROM item ORDER BY price, name",
        "SELECT name FROM item ORDER BY price, name, id DESC",
    ),
    # A key that orders as the reference's does.
    ("SELECT id FROM item ORDER BY id DESC", "SELECT id FROM item ORDER BY -id"),
    (f"{BOTH} ORDER BY 1 DESC", f"{BOTH} ORDER BY c DESC"),
    (
        "SELECT name, RANK() OVER (ORDER BY price) AS r FROM item ORDER BY r",
        "SELECT name, RANK() OVER (ORDER BY price) AS r FROM item ORDER BY r, name DESC",
    ),
    (
        "SELECT DISTINCT price FROM item ORDER BY price",
        "SELECT price FROM item GROUP BY price ORDER BY 1",
    ),
    # One row, or rows that are equal, have no order.
    ("SELECT MAX(price) AS m FROM item ORDER BY m", "SELECT MAX(price) FROM item"),
    ("SELECT 1 FROM item ORDER BY price", "SELECT 1 FROM item"),
    # A reference without an order.
    (COUNTED, f"{COUNTED} ORDER BY city DESC"),
]
# With the fewest rows that show it.
WRONG = [
    (f"{COUNTED} ORDER BY city", COUNTED, LEFT_OPEN, 2),
    (f"{BOTH} ORDER BY 1", BOTH, LEFT_OPEN, 1),
    (f"{COUNTED} ORDER BY COUNT(*), city", f"{COUNTED} ORDER BY COUNT(*)", LEFT_OPEN, 2),
    (f"{COUNTED} ORDER BY COUNT(*)", f"{COUNTED} ORDER BY COUNT(*) DESC, city", ORDER, 3),
    ("SELECT name FROM item ORDER BY price", "SELECT name FROM item ORDER BY name DESC", ORDER, 2),
    ("SELECT id FROM item ORDER BY id", "SELECT id FROM item ORDER BY id DESC", ORDER, 2),
    (
        "SELECT name FROM item ORDER BY id",
        "SELECT name FROM (SELECT name FROM item ORDER BY id) AS q",
        LEFT_OPEN,
        2,
    ),
]


@pytest.mark.parametrize("reference, answer", FINE, ids=range(len(FINE)))
def test_an_order_that_the_keys_allow(
    reference: str, answer: str, roles_or_none: Roles | None
) -> None:
    found = verdict(SCHEMA, {"item": ITEMS}, reference, answer, roles_or_none, order=True)
    assert isinstance(found.outcome, NoDifference), found.outcome
    found = verdict(SCHEMA, {"item": ITEMS}, reference, answer, roles_or_none)
    assert isinstance(found.outcome, NoDifference) and not found.remarks


@pytest.mark.parametrize("reference, answer, how, rows", WRONG, ids=range(len(WRONG)))
def test_an_order_that_the_keys_do_not_allow(
    reference: str, answer: str, how: str, rows: int, roles_or_none: Roles | None
) -> None:
    found = verdict(SCHEMA, {"item": ITEMS}, reference, answer, roles_or_none, order=True).outcome
    assert isinstance(found, Differs) and found.difference == ORDER
    assert len(found.kept) == rows
    # Storage alone may show in one database what another one's sorter hides.
    assert found.how == how or how == LEFT_OPEN
    made = verdict(SCHEMA, {"item": ITEMS}, reference, answer, roles_or_none)
    assert isinstance(made.outcome, NoDifference)
    assert [one.difference for one in made.remarks] == [ORDER]


def test_what_sqlite_sorts_unasked_is_told_so() -> None:
    found = verdict(SCHEMA, {"item": ITEMS}, f"{COUNTED} ORDER BY city", COUNTED, order=True)
    assert isinstance(found.outcome, Differs) and found.outcome.how == LEFT_OPEN
    assert found.outcome.reference.lines == found.outcome.answer.lines


def test_runs_against_all_orders() -> None:
    """Whether each order that the answer's keys leave open is one that the reference's do."""
    chance = random.Random("orders")
    seen = [0, 0]
    for _ in range(300):
        count = chance.randint(0, 5)
        rows: list[Line] = [
            (chance.choice("ab"), chance.randint(1, 2), chance.randint(1, 3)) for _ in range(count)
        ]
        orders = [
            {
                tuple(row[:1] for row in way)
                for way in itertools.permutations(rows)
                if [row[key] for row in way] == sorted(row[key] for row in way)
            }
            for key in (1, 2)
        ]
        came = list(chance.choice(sorted(orders[1])))
        wanted = runs(chance.choice(sorted(orders[0])), [(row[0], row[1]) for row in rows])
        own = runs(came, [(row[0], row[2]) for row in rows])
        assert wanted is not None and own is not None
        is_right = is_in_order(wanted, came) and is_bound(wanted, came, [len(run) for run in own])
        assert is_right == (orders[1] <= orders[0]), (rows, came)
        seen[is_right] += 1
    assert min(seen) > 30
