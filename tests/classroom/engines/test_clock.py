"""What asks the clock is told before it is tried, in both databases; a text is a text."""
from __future__ import annotations

from dataclasses import replace

import pytest
import shop
from roles import Roles

from classroom.engines.child import tried
from classroom.exercise.typed_rows import POSTGRESQL, SQLITE, Made, Material
from classroom.verdict.verdict import Cause, NoDifference, NotDetermined, Refusal

# By the manuals of SQLite 3.40 and of PostgreSQL 15, with what is named.
SQLITE_ASKS = {
    "SELECT date('now') FROM orders": "'now'",
    "SELECT no FROM orders WHERE day < datetime( ' Now ' , '-1 day')": "' Now '",
    "SELECT strftime('%Y', 'now')": "'now'",
    "SELECT julianday(coalesce(day, 'now')) FROM orders": "'now'",
    """SELECT "date"('now')""": "'now'",
    "SELECT date()": "date()",
    "SELECT strftime('%s')": "strftime()",
    "SELECT date('no' || 'w')": "date(..)",
    "SELECT date(substr('xnow', 2))": "date(..)",
    "SELECT date(char(110, 111, 119))": "date(..)",
    "SELECT date(x'6e6f77')": "x'6e6f77'",
    "WITH today AS (SELECT 'now' AS day) SELECT date(day) FROM today": "'now'",
}
POSTGRESQL_ASKS = {
    "SELECT no FROM orders WHERE day::date < CURRENT_DATE": "CURRENT_DATE",
    "SELECT now()": "now()",
    'SELECT pg_catalog."now"()': "now()",
    "SELECT statement_timestamp()": "statement_timestamp()",
    "SELECT LOCALTIMESTAMP(0)": "LOCALTIMESTAMP",
    "SELECT localtime": "localtime",
    "SELECT age(day::date) FROM orders": "age()",
    "SELECT no FROM orders WHERE day::date < 'today'": "'today'",
    "SELECT DATE 'tomorrow'": "'tomorrow'",
    "SELECT TIMESTAMP WITH TIME ZONE 'now'": "'now'",
    "SELECT CAST('now' AS timestamp)": "'now'",
    "SELECT 'Yesterday'::date": "'Yesterday'",
    r"SELECT E'no\x77'::date": r"E'no\x77'",
    "SELECT $$now$$::timestamptz": "$$now$$",
    "SELECT ('no' || 'w')::date": "a date of a computed text",
    "SELECT CAST(lower('NOW') AS timestamp)": "a date of a computed text",
    "SELECT 'now'::text::date": "a date of a computed text",
    "SELECT day::date FROM orders UNION SELECT 'now'": "'now'",
    "SELECT timestamptz_in('now', 0, -1)": "'now'",
    "SELECT age(CURRENT_TIMESTAMP, day::date) FROM orders": "CURRENT_TIMESTAMP",
}
SQLITE_READS = (
    "SELECT name FROM customer WHERE city <> 'now'",
    "SELECT no FROM orders WHERE 'now' = day AND date(day) > '2024-01-02'",
    "SELECT no, 'now' FROM orders",
    "SELECT date(day, '+1 day'), strftime('%Y', day), time('12:00') FROM orders",
    "SELECT date((SELECT MAX(day) FROM orders)), date('2024-01-01T10:00')",
    "SELECT date('2024' || '-01-01'), date(julianday('2024-01-01') + 1)",
    "SELECT no FROM orders WHERE day IN ('2024-01-01', 'now') AND date(day) IS NOT NULL",
    "SELECT date FROM (SELECT day AS date FROM orders)",
)
POSTGRESQL_READS = (
    "SELECT name FROM customer WHERE city <> 'now' OR city = 'today'",
    "SELECT no, 'now' FROM orders",
    "SELECT name || ' of today' FROM customer WHERE city LIKE '%now%'",
    "SELECT no FROM orders WHERE day::date >= DATE '2024-02-01' OR day::date = 'epoch'",
    "SELECT age(day::date, '2024-01-01') FROM orders",
    "SELECT (day || ' 10:00')::timestamp, CAST('2024-01-01' AS date) FROM orders",
    "SELECT date_trunc('month', day::timestamp(0)) FROM orders",
    "SELECT day AS localtimes FROM orders WHERE day IN ('now', 'today')",
)


def found(text: str, roles: Roles | None, of: Material | None = None) -> object:
    question = {"reference": text, "answer": text}
    if roles:
        question |= {"engine": roles.loader, "asker": roles.asker}
    return tried(of or shop.material(POSTGRESQL if roles else SQLITE), question).outcome


def asks(told: str) -> Refusal:
    return Refusal(True, Cause.BARRED, f"it asks the clock: {told}")


@pytest.mark.parametrize("text", SQLITE_ASKS)
def test_sqlite_is_not_asked_for_the_time(text: str) -> None:
    assert found(text, None) == asks(SQLITE_ASKS[text])


@pytest.mark.parametrize("text", POSTGRESQL_ASKS)
def test_postgresql_is_not_asked_for_the_time(text: str, roles: Roles) -> None:
    assert found(text, roles) == asks(POSTGRESQL_ASKS[text])


@pytest.mark.parametrize("text", SQLITE_READS)
def test_a_text_in_sqlite_is_a_text(text: str) -> None:
    assert isinstance(found(text, None), (NoDifference, NotDetermined))


@pytest.mark.parametrize("text", POSTGRESQL_READS)
def test_a_text_in_postgresql_is_a_text(text: str, roles: Roles) -> None:
    assert isinstance(found(text, roles), (NoDifference, NotDetermined))


@pytest.mark.parametrize("product", [SQLITE, POSTGRESQL])
def test_a_view_asks_as_a_query_does(product: str, request: pytest.FixtureRequest) -> None:
    """One that the query names, by itself or in a view, and no other."""
    roles = request.getfixturevalue("roles") if product == POSTGRESQL else None
    now = "date('now')" if product == SQLITE else "CURRENT_DATE::text"
    texts = {
        "late": f"SELECT no, customer FROM orders WHERE day < {now}",
        "later": "SELECT no FROM late",
        "bought": "SELECT no FROM orders WHERE day < '2024-02-01'",
    }
    views = tuple(Made(name, f"CREATE VIEW {name} AS {text}", text) for name, text in texts.items())
    of = replace(shop.material(product), views=views)
    told = "'now'" if product == SQLITE else "CURRENT_DATE"
    assert found("SELECT no FROM later", roles, of) == asks(told)
    assert isinstance(found("SELECT no FROM bought", roles, of), NoDifference)
