"""SQLite gets a text as it is; what it has no word for is rewritten, and the verdict says so."""
from __future__ import annotations

import sqlite3

import pytest
import shop

from classroom.verdict import sentences
from classroom.verdict.verdict import Cause, Differs, NoDifference, Refusal

ENGINE = f"sqlite {sqlite3.sqlite_version}"
CHEAP = "SELECT sku FROM product WHERE price >= 3"
# Right for CHEAP, by SQL's meaning.
SAME = [
    "SELECT sku FROM product WHERE price = ANY (SELECT price FROM product WHERE price >= 3)",
    "SELECT sku FROM product WHERE price >= ALL (SELECT 3)",
    "SELECT t.a FROM (SELECT sku, price FROM product) AS t(a, p) WHERE t.p >= 3",
    "SELECT sku FROM product GROUP BY sku HAVING BOOL_OR(price >= 3)",
    "SELECT sku FROM product WHERE price::int >= 3",
    "SELECT CONCAT(sku, '') FROM product WHERE price >= 3",
    "SELECT sku FROM product WHERE price >= 3 AND EXTRACT(YEAR FROM DATE '2024-01-01') = 2024",
    "SELECT sku FROM product WHERE price >= 3 ORDER BY sku FETCH FIRST 10 ROWS ONLY",
    "SELECT s.sku FROM product s CROSS JOIN LATERAL (SELECT s.price AS p) q WHERE q.p >= 3",
    "(SELECT sku FROM product WHERE price >= 3)",
    "(SELECT sku FROM product WHERE price >= 3) UNION (SELECT sku FROM product WHERE price > 4)",
    "SELECT sku FROM product EXCEPT ALL SELECT sku FROM product WHERE price < 3 OR price IS NULL",
    "SELECT q.sku FROM ((SELECT sku FROM product) EXCEPT (SELECT sku FROM product WHERE price < 3"
    " OR price IS NULL)) q",
]


@pytest.mark.parametrize("answer", SAME)
def test_an_answer_in_other_words(answer: str) -> None:
    made = shop.tried(CHEAP, answer)
    assert isinstance(made.outcome, NoDifference), sentences.text(made)
    assert made.engine == f"{ENGINE} after rewriting the answer"


def test_a_wrong_answer_in_other_words_differs() -> None:
    made = shop.tried(CHEAP, "SELECT sku FROM product WHERE price = ANY (SELECT 99)")
    assert isinstance(made.outcome, Differs) and len(made.outcome.kept) == 1
    assert "after rewriting the answer" in sentences.text(made)


def test_what_was_rewritten_is_told() -> None:
    for which, (reference, answer) in {
        " after rewriting the reference": (SAME[1], CHEAP),
        " after rewriting both": (SAME[1], SAME[0]),
        "": (CHEAP, "SELECT sku FROM product WHERE price > 2"),
    }.items():
        made = shop.tried(reference, answer)
        assert isinstance(made.outcome, NoDifference)
        assert made.engine == ENGINE + which


@pytest.mark.parametrize(
    "text, message, place",
    [
        # Its own text's message and place, where the rewritten text is refused too.
        ("SELECT sku FROM product WHERE nosuch = ANY (SELECT 1)", 'near "SELECT"', None),
        ("SELECT sku FROM product WHERE sku ~ 'p'", 'near "~": syntax error', 34),
        ("SELECT sku FROM product WHERE sku ~ 'p' AND price = ANY (SELECT 3)", "near", None),
        ("SELECT nosuch FROM product", "no such column: nosuch", 7),
        ("SELECT sku, FROM product WHERE price::int = 3", 'near "FROM"', 12),
    ],
)
def test_a_refusal_is_that_of_the_own_text(text: str, message: str, place: int | None) -> None:
    made = shop.tried(CHEAP, text)
    assert isinstance(made.outcome, Refusal) and made.outcome.message.startswith(message)
    if place is not None:
        assert made.outcome.place == place
    assert made.engine == ENGINE


def test_a_rewritten_text_is_barred_as_any_other() -> None:
    made = shop.tried(CHEAP, "SELECT sku FROM product WHERE random() >= ALL (SELECT 3)")
    assert isinstance(made.outcome, Refusal) and made.outcome.cause == Cause.BARRED


@pytest.mark.parametrize(
    "operator, other",
    # By hand: INTERSECT goes before UNION and EXCEPT.
    [
        ("{a} UNION {b} INTERSECT {c}", "{a} UNION SELECT * FROM ({b} INTERSECT {c})"),
        ("{a} EXCEPT {b} INTERSECT {c}", "{a} EXCEPT SELECT * FROM ({b} INTERSECT {c})"),
    ],
)
def test_intersect_goes_first(operator: str, other: str) -> None:
    parts = {
        "a": "SELECT id FROM customer",
        "b": "SELECT price FROM product",
        "c": "SELECT qty FROM item",
    }
    texts = [form.format(**parts) for form in (operator, other)]
    for reference, answer in (texts, texts[::-1]):
        made = shop.tried(reference, answer)
        assert isinstance(made.outcome, NoDifference), sentences.text(made)
        assert "after rewriting" in made.engine
