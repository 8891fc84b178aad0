"""Queries that fail at run time on some rows, over both databases."""
from __future__ import annotations

import pytest
from roles import Roles
from trying import Rows, verdict

from classroom.exercise.typed_rows import POSTGRESQL, SQLITE
from classroom.verdict.compare import FAILURE, ROWS
from classroom.verdict.verdict import Cause, Differs, Doubt, NoDifference, Refusal, WitnessRow

SERVES = "CREATE TABLE serves (bar TEXT, beer TEXT, price INTEGER, PRIMARY KEY (bar, beer));"
PRICES: Rows = [("A", "x", 3), ("A", "y", 0), ("B", "x", 2), ("B", "z", 0), ("C", "x", None)]
# In SQLite nothing is divided by zero; this fails for 0 alone: "integer overflow".
FAILS = {
    POSTGRESQL: "SELECT beer, 100 / price FROM serves",
    SQLITE: "SELECT beer, CASE price WHEN 0 THEN abs(-9223372036854775807 - 1) ELSE 100 / price END FROM serves",
}
NULL = "SELECT beer, 100 / NULLIF(price, 0) FROM serves"


@pytest.fixture(params=[SQLITE, POSTGRESQL])
def product(request: pytest.FixtureRequest) -> tuple[str, Roles | None]:
    made: Roles | None = request.getfixturevalue("roles") if request.param == POSTGRESQL else None
    return request.param, made


def test_a_part_on_which_the_reference_fails_tells_nothing(
    product: tuple[str, Roles | None]
) -> None:
    name, roles = product
    rows: Rows = [("A", "x", 3), ("A", "y", 0)]
    made = verdict(
        SERVES,
        {"serves": rows},
        f"{FAILS[name]} WHERE bar = 'A' AND beer < 'z' AND (SELECT COUNT(*) FROM serves) = 1",
        NULL + " WHERE (SELECT COUNT(*) FROM serves) = 1",
        roles,
    )
    assert isinstance(made.outcome, NoDifference), made.outcome
    (doubt,) = made.doubts
    assert doubt.rows == (WitnessRow("serves", 2, ("A", "y", 0)),) and doubt.failure


def test_a_difference_is_found_beside_such_parts(product: tuple[str, Roles | None]) -> None:
    name, roles = product
    made = verdict(SERVES, {"serves": PRICES}, FAILS[name], f"{NULL} WHERE price > 2", roles)
    assert isinstance(made.outcome, Differs) and made.outcome.difference == ROWS
    assert [row.cells[2] for row in made.outcome.kept] != [0] and len(made.outcome.kept) == 1
    assert [doubt.failure != "" for doubt in made.doubts] == [True]


def test_a_reference_that_fails_on_all_rows_has_no_verdict(
    product: tuple[str, Roles | None]
) -> None:
    name, roles = product
    found = verdict(SERVES, {"serves": PRICES}, FAILS[name], NULL, roles).outcome
    assert isinstance(found, Refusal) and found.is_reference and found.cause == Cause.UNSUPPORTED


def test_an_answer_that_fails_on_rows_differs(product: tuple[str, Roles | None]) -> None:
    name, roles = product
    found = verdict(SERVES, {"serves": PRICES}, NULL, FAILS[name], roles).outcome
    assert isinstance(found, Differs) and found.difference == FAILURE
    assert [row.cells[2] for row in found.kept] == [0]


def test_what_fails_over_no_rows_is_no_wrong_sql(product: tuple[str, Roles | None]) -> None:
    name, roles = product
    reference = "SELECT 100 * COUNT(price) / NULLIF(COUNT(*), 0) FROM serves"
    answer = {
        POSTGRESQL: "SELECT 100 * COUNT(price) / COUNT(*) FROM serves",
        SQLITE: "SELECT CASE COUNT(*) WHEN 0 THEN abs(-9223372036854775807 - 1) ELSE 100 * COUNT(price) / COUNT(*) END FROM serves",
    }[name]
    found = verdict(SERVES, {"serves": PRICES}, reference, answer, roles).outcome
    assert isinstance(found, Differs) and found.difference == FAILURE and not found.kept
    # The same as the reference: no rows tell nothing, and all others do.
    other = verdict(SERVES, {"serves": PRICES}, answer, reference, roles)
    assert isinstance(other.outcome, NoDifference)
    assert [doubt.rows for doubt in other.doubts] == [()]


def test_subqueries_of_two_rows(roles: Roles) -> None:
    """In PostgreSQL they fail, by class 21; an answer with one is wrong on two rows."""
    found = verdict(
        SERVES,
        {"serves": PRICES},
        "SELECT beer FROM serves WHERE price = (SELECT MAX(price) FROM serves)",
        "SELECT beer FROM serves WHERE price >= (SELECT price FROM serves WHERE price > 0)",
        roles,
    ).outcome
    assert isinstance(found, Differs) and found.kept


def test_names_and_syntax_stay_wrong(product: tuple[str, Roles | None]) -> None:
    for text, cause in (
        ("SELECT beers FROM serves", Cause.NAME),
        ("SELECT beer FROM serves WHERE", Cause.SYNTAX),
    ):
        found = verdict(SERVES, {"serves": PRICES}, NULL, text, product[1]).outcome
        assert isinstance(found, Refusal) and found.cause == cause and found.is_wrong


def test_ties_of_the_reference_are_told(product: tuple[str, Roles | None]) -> None:
    made = verdict(
        SERVES,
        {"serves": PRICES},
        "SELECT beer FROM serves ORDER BY price DESC LIMIT 1",
        "SELECT beer FROM serves ORDER BY price DESC, bar, beer LIMIT 1",
        product[1],
    )
    (doubt,) = made.doubts
    assert doubt == Doubt(
        (WitnessRow("serves", 2, PRICES[1]), WitnessRow("serves", 4, PRICES[3])), keys="beer"
    )
