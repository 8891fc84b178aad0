"""Numbers of queries as two engines have them: digits, and types of plain rows."""
from __future__ import annotations

import pytest
from roles import Roles
from trying import Rows, verdict

from classroom.exercise.rows import Held, Pool
from classroom.exercise.typed_rows import POSTGRESQL, of_schema
from classroom.sql.schema import tables_of
from classroom.verdict.verdict import Differs, NoDifference

SERVES = "CREATE TABLE serves (bar TEXT, beer TEXT, price INTEGER, PRIMARY KEY (bar, beer));"
PRICES: Rows = [("A", "x", 3), ("A", "y", 0), ("B", "x", 2), ("B", "z", 0), ("C", "x", None)]
ACCOUNT = "CREATE TABLE account (id INTEGER PRIMARY KEY, cents INTEGER);"
CENTS: Rows = [(1, 4006381333931), (2, 4006381333948)]
VISIT = "CREATE TABLE visit (id INTEGER PRIMARY KEY, t TEXT, n INTEGER);"
VISITS: Rows = [
    (1, "2024-01-01 10:00:00", 4006381333931),
    (2, "2024-01-01 10:05:00", 4006381333948),
]


def test_an_integer_is_one_of_32_bits_in_postgresql(roles: Roles) -> None:
    """By PostgreSQL's manual AVG of integer has a fraction, and integer / integer has none."""
    found = verdict(
        SERVES,
        {"serves": PRICES},
        "SELECT AVG(price) FROM serves",
        "SELECT SUM(price) / COUNT(price) FROM serves",
        roles,
    ).outcome
    assert isinstance(found, Differs) and len(found.kept) == 2


@pytest.mark.parametrize(
    "reference, answer",
    [
        ("SELECT SUM(cents) FROM account", "SELECT SUM(cents) + 1 FROM account"),
        (
            "SELECT SUM(cents / 1000.0) FROM account",
            "SELECT SUM(cents / 1000.0) + 0.001 FROM account",
        ),
    ],
)
def test_decimals_are_compared_exactly(reference: str, answer: str, roles: Roles) -> None:
    found = verdict(ACCOUNT, {"account": CENTS}, reference, answer, roles).outcome
    assert isinstance(found, Differs)


@pytest.mark.parametrize(
    "answer",
    [
        "SELECT MIN(julianday(t)), AVG(n) FROM visit",
        "SELECT MAX(julianday(t)), MIN(n) * 1.0 FROM visit",
        "SELECT MAX(julianday(t)), AVG(n) + 100 FROM visit",
    ],
)
def test_digits_of_floats(answer: str) -> None:
    reference = "SELECT MAX(julianday(t)), AVG(n) FROM visit"
    assert isinstance(verdict(VISIT, {"visit": VISITS}, reference, answer).outcome, Differs)


PAIRS = [
    ("SELECT AVG(n) FROM visit", "SELECT SUM(n) * 1.0 / COUNT(n) FROM visit"),
    ("SELECT SUM(n * 1.19) FROM visit", "SELECT SUM(n) * 1.19 FROM visit"),
    ("SELECT AVG(n / 7.0) FROM visit", "SELECT AVG(n) / 7.0 FROM visit"),
    ("SELECT SUM(n / 3.0) FROM visit", "SELECT SUM(n) / 3.0 FROM visit"),
    ("SELECT AVG(n) FROM visit", "SELECT AVG(CAST(n AS DOUBLE PRECISION)) FROM visit"),
]


@pytest.mark.parametrize("reference, answer", PAIRS)
@pytest.mark.parametrize("product", ["sqlite", POSTGRESQL])
def test_errors_of_the_last_digits_are_no_difference(
    reference: str, answer: str, product: str, request: pytest.FixtureRequest
) -> None:
    """Equal by arithmetic, and with other roundings."""
    roles = request.getfixturevalue("roles") if product == POSTGRESQL else None
    rows: Rows = [(at, None, at * at * 7919 % 1000 + at) for at in range(9)]
    found = verdict(VISIT, {"visit": rows}, reference, answer, roles).outcome
    assert isinstance(found, NoDifference), found


def test_types_of_plain_rows() -> None:
    schema = 'CREATE TABLE a (id INTEGER PRIMARY KEY, "Big" BIGINT, n INT, t TEXT);'
    (table,) = tables_of(schema)

    def made(most: int) -> str:
        held = Held(table, [(1, 2, most, "x"), (2, None, None, None)], [(0,)], [])
        return of_schema(Pool(schema.encode(), [held]), POSTGRESQL).statements[0]

    assert '"id" integer NOT NULL, "Big" bigint, "n" integer,' in made(2**31 - 1)
    assert '"n" bigint' in made(2**31) and '"n" bigint' in made(-(2**31) - 1)
