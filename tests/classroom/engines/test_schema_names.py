"""Tables behind the name of their schema, which in a trial lie elsewhere."""
from __future__ import annotations

import pytest
import shop
from roles import Roles

from classroom.engines.child import tried
from classroom.exercise.typed_rows import POSTGRESQL, SQLITE, Made, Material
from classroom.sql.public_names import without_public
from classroom.verdict.verdict import Cause, Differs, NoDifference, Refusal

PLAIN = "SELECT name FROM customer WHERE city = 'Oslo'"
SAME = (
    "SELECT name FROM public.customer WHERE city = 'Oslo'",
    "SELECT customer.name FROM Public . customer WHERE public.customer.city = 'Oslo'",
    "SELECT c.name FROM public.customer AS c WHERE c.city = 'Oslo'",
    'SELECT name FROM "public"."customer" WHERE city = \'Oslo\'',
)


def found(answer: str, roles: Roles | None = None, of: Material | None = None) -> object:
    question = {"reference": PLAIN, "answer": answer}
    if roles:
        question |= {"engine": roles.loader, "asker": roles.asker}
    return tried(of or shop.material(POSTGRESQL if roles else SQLITE), question).outcome


@pytest.mark.parametrize("answer", SAME)
def test_public_in_postgresql(answer: str, roles: Roles) -> None:
    assert isinstance(found(answer, roles), NoDifference)
    other = found(answer.replace("'Oslo'", "'Bergen'"), roles)
    assert isinstance(other, Differs) and len(other.kept) == 1


@pytest.mark.parametrize("answer", SAME)
def test_public_in_sqlite(answer: str) -> None:
    assert isinstance(found(answer), NoDifference)


def test_main_in_sqlite() -> None:
    answer = "SELECT main.customer.name FROM main.customer WHERE main.customer.city = 'Oslo'"
    assert isinstance(found(answer), NoDifference)
    tied = "SELECT name FROM main.customer ORDER BY city LIMIT 1"
    assert found(tied) == found(tied.replace("main.", ""))


def test_views_and_types_behind_public(roles: Roles) -> None:
    made = shop.material(POSTGRESQL)
    text = "SELECT name, city FROM customer"
    of = Material(
        POSTGRESQL,
        made.pool,
        made.statements,
        (Made("people", f"CREATE VIEW people AS {text}", text),),
        "CREATE DOMAIN place AS text",
    )
    answer = "SELECT name FROM public.people WHERE city::public.place = 'Oslo'::public.place"
    assert isinstance(found(answer, roles, of), NoDifference)


def test_a_place_is_one_in_the_student_s_text(roles: Roles) -> None:
    told = found("SELECT name,\n       nam FROM public.customer", roles)
    assert isinstance(told, Refusal) and told.cause == Cause.NAME and told.place == 20


@pytest.mark.parametrize(
    "answer",
    [
        # A table of another name, and one whose name the query gives to something else.
        "SELECT name FROM public.customers",
        "WITH customer AS (SELECT 'Ann' AS name) SELECT name FROM public.customer",
        "SELECT name FROM information.customer",
    ],
)
def test_what_stays_as_it_is(answer: str, roles: Roles) -> None:
    names = {"customer", "orders"}
    assert without_public(answer, names) == answer
    assert isinstance(found(answer, roles), Refusal)


def test_public_as_a_name_of_the_query() -> None:
    for text in (
        "SELECT public.customer FROM orders AS public",
        "SELECT public.customer FROM orders public",
        "SELECT 'public.customer', 1 -- public.customer",
        "SELECT x.public.customer FROM x",
    ):
        assert without_public(text, {"customer"}) == text
    assert without_public('SELECT 1 FROM public."Customer"', {"customer"}).count("public") == 1
