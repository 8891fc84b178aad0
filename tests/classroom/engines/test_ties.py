"""Queries whose answers depend on how ties are broken, against all orders of the rows."""
from __future__ import annotations

import itertools
import os
import random
from collections import Counter
from collections.abc import Iterator, Sequence
from typing import Any

import pytest
from roles import Roles

from classroom.engines.counterexample import Search
from classroom.engines.looks import Wanted
from classroom.engines.engine import Engine
from classroom.engines.postgres import Postgres
from classroom.engines.sqlite import Sqlite
from classroom.exercise.part_masks import Parts
from classroom.exercise.rows import Cell, Held, Pool
from classroom.exercise.typed_rows import POSTGRESQL, SQLITE, Material, of_schema
from classroom.sql.schema import Column, Table
from classroom.verdict.verdict import Differs, NoDifference, NotDetermined, Outcome

SCHEMA = "CREATE TABLE item (id INTEGER PRIMARY KEY, name TEXT, city TEXT, price INTEGER);"
Rows = Sequence[tuple[Cell, ...]]
THREE: Rows = [(1, "c", "X", 5), (2, "a", "Y", 5), (3, "b", "X", 5), (4, "d", "Y", 9)]
# How many random queries; more by this variable.
RANDOM = int(os.environ.get("RATEST_TIES", "200"))


def material(rows: Rows, product: str) -> Material:
    columns = [("id", "INTEGER"), ("name", "TEXT"), ("city", "TEXT"), ("price", "INTEGER")]
    table = Table("item", tuple(Column(*of) for of in columns))
    return of_schema(Pool(SCHEMA.encode(), [Held(table, list(rows), [(0,)], [])]), product)


@pytest.fixture(params=[SQLITE, POSTGRESQL])
def product(request: pytest.FixtureRequest) -> tuple[str, Roles | None]:
    made: Roles | None = request.getfixturevalue("roles") if request.param == POSTGRESQL else None
    return request.param, made


def opened(of: Material, reference: str, answer: str, roles: Roles | None) -> Engine:
    parts = Parts(of.pool)
    if roles:
        return Postgres(of, parts, reference, answer, roles.loader, roles.asker)
    return Sqlite(of, parts, reference, answer)


def outcome(rows: Rows, reference: str, answer: str, product: tuple[str, Roles | None]) -> Outcome:
    of = material(rows, product[0])
    engine = opened(of, reference, answer, product[1])
    try:
        found = Search(engine, Parts(of.pool), of, (reference, answer), Wanted())
        return found.outcome()
    finally:
        engine.close()


def is_tied(rows: Rows, query: str, product: tuple[str, Roles | None]) -> bool:
    """Whether the ways of breaking ties give two answers on all rows."""
    of = material(rows, product[0])
    engine = opened(of, query, query, product[1])
    try:
        whole = (1 << len(rows)) - 1
        return Search(engine, Parts(of.pool), of, (query, query), Wanted()).is_tied(0, whole, True)
    finally:
        engine.close()


# By SQL's meaning, over THREE.
QUERIES = [
    ("SELECT name FROM item ORDER BY price DESC LIMIT 1 OFFSET 1", True),
    ("SELECT name FROM item ORDER BY price DESC LIMIT 1", False),
    ("SELECT name FROM item ORDER BY price DESC, name LIMIT 1 OFFSET 2", False),
    ("SELECT city FROM item GROUP BY city ORDER BY COUNT(*) DESC LIMIT 1", True),
    ("SELECT city FROM item GROUP BY city ORDER BY COUNT(*) DESC, city LIMIT 1", False),
    (
        "SELECT city FROM (SELECT city, COUNT(*) AS n FROM item GROUP BY city) AS q"
        " ORDER BY n DESC LIMIT 1",
        True,
    ),
    (
        "SELECT name FROM (SELECT name, ROW_NUMBER() OVER (ORDER BY price DESC) AS r FROM item)"
        " AS q WHERE r = 3",
        True,
    ),
    (
        "SELECT name FROM (SELECT name, ROW_NUMBER() OVER (ORDER BY price DESC, name) AS r FROM"
        " item) AS q WHERE r = 3",
        False,
    ),
    ("SELECT name, RANK() OVER (ORDER BY price) FROM item", False),
    ("SELECT price FROM item ORDER BY price DESC LIMIT 1 OFFSET 2", False),
    ("SELECT MAX(price) FROM item", False),
    (
        "SELECT name FROM item WHERE price = (SELECT price FROM item ORDER BY price DESC LIMIT 1)",
        False,
    ),
    ("SELECT name FROM item LIMIT 2", True),
    ("SELECT DISTINCT city FROM item LIMIT 1", True),
    ("SELECT DISTINCT price FROM item ORDER BY price LIMIT 1", False),
    ("SELECT city FROM item UNION SELECT name FROM item LIMIT 1", True),
    ("SELECT city FROM item UNION SELECT name FROM item ORDER BY 1 LIMIT 1", False),
    ("SELECT name, LAG(name) OVER (ORDER BY price) FROM item", True),
    (
        "WITH Q AS (SELECT city AS Town, COUNT(*) AS Many FROM item GROUP BY city)"
        " SELECT Town FROM Q ORDER BY Many LIMIT 1",
        True,
    ),
]


# Windows by name, and values of a frame, by hand: of the price 5 are c in X, a in Y and b in X.
OVER = "PARTITION BY city ORDER BY price"
WHOLE = "BETWEEN UNBOUNDED PRECEDING AND UNBOUNDED FOLLOWING"
WINDOWS = [
    (f"SELECT name, ROW_NUMBER() OVER w FROM item WINDOW w AS ({OVER})", True),
    (f"SELECT name, ROW_NUMBER() OVER w FROM item WINDOW w AS ({OVER}, name)", False),
    (f"SELECT name, RANK() OVER w, COUNT(*) OVER w FROM item WINDOW w AS ({OVER})", False),
    (
        "SELECT name, LAG(name) OVER (w ORDER BY price) FROM item WINDOW w AS (PARTITION BY city)",
        True,
    ),
    (
        "SELECT name, LAG(name) OVER (w ORDER BY name) FROM item WINDOW w AS (PARTITION BY city)",
        False,
    ),
    (
        f"SELECT name, SUM(id) OVER (w ROWS UNBOUNDED PRECEDING) FROM item WINDOW w AS ({OVER})",
        True,
    ),
    # The last of all peers, of which one has another city than the others.
    ("SELECT name, LAST_VALUE(name) OVER (ORDER BY price) FROM item", True),
    ("SELECT name, LAST_VALUE(price) OVER (ORDER BY price) FROM item", False),
    ("SELECT name, LAST_VALUE(city) OVER (ORDER BY price, name) FROM item", False),
    ("SELECT name, LAST_VALUE(name) OVER (PARTITION BY city) FROM item", True),
    (f"SELECT name, LAST_VALUE(name) OVER (ORDER BY price RANGE {WHOLE}) FROM item", False),
    (f"SELECT name, LAST_VALUE(name) OVER (ORDER BY price DESC ROWS {WHOLE}) FROM item", True),
    ("SELECT name, FIRST_VALUE(name) OVER (ORDER BY price) FROM item", True),
    ("SELECT name, FIRST_VALUE(name) OVER (ORDER BY price DESC) FROM item", False),
    ("SELECT FIRST_VALUE(city) OVER (PARTITION BY city) FROM item", False),
    (
        "SELECT name, FIRST_VALUE(name) OVER (ORDER BY price RANGE BETWEEN CURRENT ROW AND"
        " UNBOUNDED FOLLOWING) FROM item",
        True,
    ),
    ("SELECT name, NTH_VALUE(name, 2) OVER (ORDER BY price) FROM item", True),
    ("SELECT name, NTH_VALUE(price, 2) OVER (ORDER BY price) FROM item", False),
    # Of d alone the frame has four rows.
    ("SELECT name, NTH_VALUE(name, 4) OVER (ORDER BY price) FROM item", False),
    ("SELECT name, NTH_VALUE(name, 1) OVER (ORDER BY price DESC) FROM item", False),
    (f"SELECT name, NTH_VALUE(name, 2) OVER (ORDER BY price RANGE {WHOLE}) FROM item", True),
    ("SELECT name, NTILE(2) OVER (ORDER BY price) FROM item", True),
    ("SELECT name, NTILE(2) OVER (ORDER BY price, name) FROM item", False),
    ("SELECT name, NTILE(1) OVER (ORDER BY price) FROM item", False),
    (
        "SELECT x FROM (SELECT LAST_VALUE(name) OVER (ORDER BY price) AS x, id FROM item) AS q"
        " WHERE id = 4",
        False,
    ),
]
QUERIES += WINDOWS


@pytest.mark.parametrize("query, wanted", QUERIES, ids=range(len(QUERIES)))
def test_ties_are_seen(query: str, wanted: bool, product: tuple[str, Roles | None]) -> None:
    assert is_tied(THREE, query, product) == wanted


@pytest.mark.parametrize(
    "query, wanted",
    [
        ("SELECT DISTINCT ON (city) city, name FROM item ORDER BY city, price", True),
        ("SELECT DISTINCT ON (city) city, name FROM item ORDER BY city, price, name", False),
        ("SELECT city, string_agg(name, ',') FROM item GROUP BY city", True),
        ("SELECT city, string_agg(name, ',' ORDER BY name) FROM item GROUP BY city", False),
        ("SELECT city, array_agg(name ORDER BY price) FROM item GROUP BY city", True),
        ("SELECT string_agg(DISTINCT city, ',') FROM item", False),
        ("SELECT string_agg(DISTINCT city, ',' ORDER BY city) FROM item", False),
        ("SELECT json_agg(name) FROM item", True),
        ("SELECT json_agg(city ORDER BY city) FROM item", False),
        ("SELECT string_agg(name, ',') FROM (SELECT name FROM item ORDER BY name) AS q", False),
        ("SELECT string_agg(name, ',') FROM (SELECT * FROM item ORDER BY price) AS q", True),
        ("SELECT string_agg(name, ',') FILTER (WHERE price > 5) FROM item", False),
        ("SELECT DISTINCT string_agg(name, ',') OVER (PARTITION BY city) FROM item", True),
    ],
)
def test_ties_of_postgresql_alone(query: str, wanted: bool, roles: Roles) -> None:
    assert is_tied(THREE, query, (POSTGRESQL, roles)) == wanted


@pytest.mark.parametrize(
    "query, wanted",
    [
        ("SELECT city, group_concat(name) FROM item GROUP BY city", True),
        ("SELECT city, group_concat(price, '; ') FROM item GROUP BY city", True),
        ("SELECT city, group_concat(city) FROM item GROUP BY city", False),
        ("SELECT group_concat(name) FROM item WHERE price > 5", False),
        ("SELECT group_concat(name) FILTER (WHERE price > 5) FROM item", False),
        ("SELECT group_concat(name, '; ') FILTER (WHERE price = 5) FROM item", True),
        # X, Y, X comes either way round as the same text; but an engine may begin with Y.
        ("SELECT group_concat(DISTINCT city) FROM item WHERE price = 5", True),
        ("SELECT group_concat(DISTINCT city) FROM item WHERE city = 'X'", False),
        ("SELECT LENGTH(group_concat(name)), COUNT(*) FROM item", False),
        # SQLite 3.40 has no other way to order what is joined.
        ("SELECT group_concat(name) FROM (SELECT name FROM item ORDER BY name)", False),
        ("SELECT group_concat(name) FROM (SELECT name FROM item ORDER BY price)", True),
        (
            "SELECT group_concat(name) FROM (SELECT name FROM item ORDER BY price, id LIMIT 3)",
            False,
        ),
        ("SELECT group_concat(c) FROM (SELECT DISTINCT city AS c FROM item ORDER BY city)", False),
        (
            "WITH q AS (SELECT * FROM item ORDER BY id) SELECT city, group_concat(name) FROM q"
            " GROUP BY city",
            False,
        ),
        ("SELECT DISTINCT group_concat(name) OVER (PARTITION BY city) FROM item", True),
    ],
)
def test_ties_of_sqlite_alone(query: str, wanted: bool) -> None:
    assert is_tied(THREE, query, (SQLITE, None)) == wanted


def test_joined_values_are_those_of_sqlite() -> None:
    """But for their order, of which one row leaves none."""
    query = (
        "SELECT group_concat(price), group_concat(price * 1.5, 'x'), group_concat(NULL),"
        " group_concat(DISTINCT name), LENGTH(group_concat(city, NULL)) FROM item WHERE id = "
    )
    for number in (1, 4, 7):
        text = f"{query}{number}"
        of = material(THREE, SQLITE)
        engine = opened(of, text, text, None)
        whole = (1 << len(THREE)) - 1
        plain = engine.answers(whole)[0].lines
        assert engine.ties(0) == 16
        assert all(
            (found := engine.tied_answer(0, way, whole)) and found.lines == plain
            for way in range(16)
        )
        engine.close()


MOST = "SELECT city FROM item GROUP BY city ORDER BY COUNT(*) DESC"


@pytest.mark.parametrize(
    "reference, answer",
    [
        (QUERIES[0][0], "SELECT name FROM item ORDER BY price DESC, name LIMIT 1 OFFSET 1"),
        (f"{MOST} LIMIT 1", f"{MOST}, city LIMIT 1"),
        (f"{MOST} LIMIT 1", QUERIES[5][0]),
        # A wrong answer, since both engines happen to break its ties as the reference does.
        (f"{MOST}, city DESC LIMIT 1", f"{MOST} LIMIT 1"),
    ],
)
def test_a_tie_is_no_difference(
    reference: str, answer: str, product: tuple[str, Roles | None]
) -> None:
    rows: Rows = [(1, "a", "X", 5), (2, "b", "Y", 5), (3, "c", "Z", 5)]
    assert isinstance(outcome(rows, reference, answer, product), NotDetermined)


def test_a_difference_without_ties_is_found_beside_them(product: tuple[str, Roles | None]) -> None:
    found = outcome(
        THREE,
        "SELECT name FROM item ORDER BY price DESC LIMIT 1",
        "SELECT name FROM item ORDER BY price LIMIT 1",
        product,
    )
    assert isinstance(found, Differs) and len(found.kept) == 2


def test_no_ties_are_no_burden(product: tuple[str, Roles | None]) -> None:
    text = "SELECT city, COUNT(*) FROM item GROUP BY city"
    engine = opened(material(THREE, product[0]), text, text, product[1])
    assert engine.ties(0) == engine.ties(1) == 0
    engine.close()
    assert isinstance(outcome(THREE, text, text, product), NoDifference)


def drawn(chance: random.Random) -> tuple[Rows, str, set[tuple[tuple[tuple[Any], int], ...]]]:
    """Rows, a query, and its answers as bags over all orders of the rows."""
    count = chance.randint(0, 5)
    rows: Rows = [
        (at, chance.choice("abc"), chance.choice("XY"), chance.randint(1, 3)) for at in range(count)
    ]
    shown, key = chance.choice([(1, "name"), (2, "city"), (3, "price")]), chance.choice([2, 3])
    order = ("city", "price")[key - 2]
    is_down, limit, skip = chance.random() < 0.5, chance.randint(1, 3), chance.randint(0, 2)
    way = f"{order}{' DESC' if is_down else ''}"
    kind = chance.choice(["limit", "window", "group"])
    units: list[tuple[Any, Any]]

    def ranked(one: tuple[Any, Any]) -> Any:
        return one[1]

    if kind == "group":
        counts = Counter(row[shown[0]] for row in rows)
        units = [(value, many) for value, many in counts.items()]
        query = (
            f"SELECT {shown[1]} FROM item GROUP BY {shown[1]} ORDER BY COUNT(*)"
            f"{' DESC' if is_down else ''} LIMIT {limit} OFFSET {skip}"
        )
    else:
        units = [(row[shown[0]], row[key]) for row in rows]
        query = f"SELECT {shown[1]} FROM item ORDER BY {way} LIMIT {limit} OFFSET {skip}"
        if kind == "window":
            query = (
                f"SELECT {shown[1]} FROM (SELECT {shown[1]}, ROW_NUMBER() OVER (ORDER BY {way}) AS"
                f" r FROM item) AS q WHERE r > {skip} AND r <= {skip + limit}"
            )
    answers = set()
    for permuted in itertools.permutations(units):
        # Python's sort keeps the order of equal keys, with reverse too.
        cut = sorted(permuted, key=ranked, reverse=is_down)[skip : skip + limit]
        bag = Counter((value,) for value, _ in cut)
        answers.add(tuple(sorted(bag.items())))
    return rows, query, answers


def cases() -> Iterator[tuple[Rows, str, bool]]:
    chance = random.Random("ties")
    for _ in range(RANDOM):
        rows, query, answers = drawn(chance)
        yield rows, query, len(answers) > 1


def test_random_queries_against_all_orders() -> None:
    tied = 0
    for rows, query, wanted in cases():
        assert is_tied(rows, query, (SQLITE, None)) == wanted, (rows, query)
        tied += wanted
    assert RANDOM / 10 < tied < RANDOM
