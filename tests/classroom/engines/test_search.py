"""Verdicts: against all lawful parts of few rows, and by hand."""
from __future__ import annotations

import itertools
import json
import sqlite3
from pathlib import Path
from typing import Any

import pytest
import shop

from classroom.exercise.sources import of_exercise
from classroom.verdict import verdict
from classroom.verdict import sentences as words
from classroom.engines.run_child import Options, trier
from classroom.verdict.compare import COLUMNS, DUPLICATES, FAILURE, ORDER, ROWS, difference
from classroom.exercise.typed_rows import from_json, of_schema, to_json
from classroom.exercise.part_masks import Parts
from classroom.engines.counterexample import Search
from classroom.engines.looks import Wanted
from classroom.engines.sqlite import Sqlite
from classroom.verdict.verdict import (
    ALL,
    JOINS,
    Differs,
    NoDifference,
    NotDetermined,
    Verdict,
)

# Pairs as students write them: the reference, the answer, and the kind of their difference.
PAIRS = [
    (
        (
            "SELECT c.id, COUNT(o.no) FROM customer c LEFT JOIN orders o ON o.customer = c.id GROUP"
            " BY c.id"
        ),
        (
            "SELECT c.id, COUNT(*) FROM customer c LEFT JOIN orders o ON o.customer = c.id GROUP BY"
            " c.id"
        ),
        ROWS,
    ),
    (
        (
            "SELECT c.name, COUNT(o.no) FROM customer c LEFT JOIN orders o ON o.customer = c.id"
            " GROUP BY c.id, c.name"
        ),
        (
            "SELECT c.name, COUNT(o.no) FROM customer c JOIN orders o ON o.customer = c.id GROUP BY"
            " c.id, c.name"
        ),
        ROWS,
    ),
    (
        "SELECT customer FROM orders GROUP BY customer HAVING COUNT(*) >= 2",
        "SELECT customer FROM orders GROUP BY customer HAVING COUNT(*) > 2",
        ROWS,
    ),
    (
        "SELECT kind, AVG(price) FROM product GROUP BY kind",
        "SELECT kind, SUM(price) FROM product GROUP BY kind",
        ROWS,
    ),
    (
        (
            "SELECT c.name FROM customer c WHERE c.id NOT IN (SELECT customer FROM orders WHERE"
            " customer IS NOT NULL)"
        ),
        "SELECT c.name FROM customer c WHERE c.id NOT IN (SELECT customer FROM orders)",
        ROWS,
    ),
    (
        (
            "SELECT o.no, SUM(i.qty * p.price) FROM orders o JOIN item i ON i.ord = o.no JOIN"
            " product p ON p.sku = i.sku GROUP BY o.no"
        ),
        (
            "SELECT o.no, SUM(i.qty) * SUM(p.price) FROM orders o JOIN item i ON i.ord = o.no JOIN"
            " product p ON p.sku = i.sku GROUP BY o.no"
        ),
        ROWS,
    ),
    ("SELECT name FROM customer", "SELECT name, city FROM customer", COLUMNS),
]
SAME = [
    (
        "SELECT customer FROM orders GROUP BY customer HAVING COUNT(*) >= 2",
        "SELECT customer FROM orders GROUP BY customer HAVING COUNT(*) > 1",
    ),
    (
        "SELECT kind, AVG(price) FROM product GROUP BY kind",
        "SELECT kind, SUM(price) * 1.0 / COUNT(price) FROM product GROUP BY kind",
    ),
    (
        "SELECT name FROM customer WHERE city LIKE 'B%'",
        "SELECT name FROM customer WHERE substr(city, 1, 1) IN ('B', 'b')",
    ),
]


def found(reference: str, answer: str, **more: Any) -> Differs:
    made = shop.tried(reference, answer, **more).outcome
    assert isinstance(made, Differs), made
    return made


@pytest.mark.parametrize("reference, answer, kind", PAIRS)
def test_a_witness_is_the_smallest_of_all_lawful_parts(
    reference: str, answer: str, kind: str
) -> None:
    of = shop.material(customers=3, products=3, orders=4, items=5)
    parts = Parts(of.pool)
    engine = Sqlite(of, parts, reference, answer)
    differing = [
        part for part in shop.all_lawful(parts) if difference(*engine.answers(part), False)
    ]
    made = found(reference, answer, of=of)
    assert differing and made.difference == kind
    assert len(made.kept) == min(part.bit_count() for part in differing)
    assert made.least == ALL
    mask = parts.mask(
        [
            row
            for row in parts.rows
            for kept in made.kept
            if (of.pool.held[row.table].table.name, row.number + 1) == (kept.table, kept.number)
        ]
    )
    assert mask in differing and mask.bit_count() == len(made.kept)
    assert all(
        kept.cells == of.pool.held[row.table].rows[row.number]
        for kept, row in zip(made.kept, shop.rows_of(parts, mask))
    )


# How many rows the smallest witness has where there are many, by hand.
SIZES = [1, 1, 3, 2, None, 6, 0]


@pytest.mark.parametrize(
    "pair, size", [(pair, size) for pair, size in zip(PAIRS, SIZES) if size is not None]
)
def test_a_witness_among_many_rows(pair: tuple[str, str, str], size: int) -> None:
    large = found(*pair[:2], of=shop.material(customers=20, products=10, orders=30, items=60))
    assert large.least in (ALL, JOINS) and large.difference == pair[2]
    assert len(large.kept) == size


@pytest.mark.parametrize("reference, answer", SAME)
def test_no_difference(reference: str, answer: str) -> None:
    few = shop.tried(
        reference, answer, of=shop.material(customers=3, products=3, orders=4, items=5)
    ).outcome
    assert isinstance(few, NoDifference) and few.lawful
    many = shop.tried(
        reference, answer, of=shop.material(customers=20, products=20, orders=40, items=60)
    ).outcome
    assert (
        isinstance(many, NoDifference)
        and not many.lawful
        and many.random == 1000
        and many.below > 1
    )


def test_a_difference_that_all_rows_don_t_show() -> None:
    """Where every customer has an order, COUNT(*) and COUNT(o.no) agree on all rows."""
    of = shop.material(customers=2, orders=8, seed="full")
    engine = Sqlite(of, Parts(of.pool), *PAIRS[0][:2])
    whole = (1 << len(engine.parts.rows)) - 1
    assert not difference(*engine.answers(whole), False)
    assert len(found(*PAIRS[0][:2], of=of).kept) == 1


def test_duplicates_are_a_remark_or_a_difference() -> None:
    pair = (
        "SELECT DISTINCT city FROM customer WHERE city IS NOT NULL",
        "SELECT city FROM customer WHERE city IS NOT NULL",
    )
    made = shop.tried(*pair, of=shop.material(customers=8))
    assert isinstance(made.outcome, NoDifference)
    (remark,) = made.remarks
    assert remark.difference == DUPLICATES and remark.line is not None
    assert (remark.line.reference, remark.line.answer) == (1, 2)
    assert (
        words.remark(remark)
        == f"returns {remark.line.cells[0]!s} twice where the reference returns it once"
    )
    counted = found(*pair, of=shop.material(customers=8), duplicates=True)
    assert counted.difference == DUPLICATES and len(counted.kept) == 2


def test_order_is_a_remark_or_a_difference() -> None:
    pair = "SELECT sku FROM product ORDER BY sku DESC", "SELECT sku FROM product ORDER BY sku"
    made = shop.tried(*pair)
    assert isinstance(made.outcome, NoDifference) and [of.difference for of in made.remarks] == [
        ORDER
    ]
    assert found(*pair, order=True).difference == ORDER and len(found(*pair, order=True).kept) == 2


def test_order_counts_only_where_the_reference_determines_it() -> None:
    assert (
        shop.tried(
            "SELECT kind FROM product", "SELECT kind FROM product ORDER BY kind", order=True
        ).remarks
        == ()
    )
    ties = shop.tried(
        "SELECT kind, sku FROM product ORDER BY kind",
        "SELECT kind, sku FROM product ORDER BY kind, sku DESC",
        order=True,
    )
    assert isinstance(ties.outcome, NoDifference) and not ties.remarks
    # Ordered by luck: where rows are stored the other way round they come so.
    assert (
        found(
            "SELECT sku FROM product ORDER BY sku", "SELECT sku FROM product", order=True
        ).difference
        == ORDER
    )


@pytest.mark.parametrize(
    "reference, answer, which",
    [
        (
            "SELECT name FROM customer ORDER BY id LIMIT 3",
            "SELECT name FROM customer LIMIT 3",
            (False, True),
        ),
        (
            "SELECT customer, MIN(day) FROM orders GROUP BY customer",
            "SELECT customer, day FROM orders GROUP BY customer",
            (False, True),
        ),
        (
            (
                "SELECT ord, group_concat(sku) FROM (SELECT * FROM item ORDER BY ord, sku) GROUP"
                " BY ord"
            ),
            "SELECT ord, group_concat(sku) FROM item GROUP BY ord",
            None,
        ),
        ("SELECT id FROM customer LIMIT 2", "SELECT id FROM customer LIMIT 2", (True, True)),
    ],
)
def test_not_determined(reference: str, answer: str, which: tuple[bool, bool] | None) -> None:
    made = shop.tried(reference, answer, of=shop.material(items=14)).outcome
    assert isinstance(made, NotDetermined), made
    assert which is None or (made.reference, made.answer) == which
    assert "depends on the order in which the rows are stored" in words.not_determined(made)


@pytest.mark.parametrize(
    "text, message, place",
    [
        ("SELECT nosuch FROM customer", "no such column: nosuch", 7),
        ('SELECT "nosuch" FROM customer', "no such column: nosuch", 7),
        ("SELECT * FROM nosuch", "no such table: nosuch", 14),
        ("SELEC 1", None, None),
        ("SELECT name FROM customer WHERE", "incomplete input", None),
        ("SELECT count(*) FROM customer WHERE count(*) > 1", "misuse of aggregate: count()", None),
        (
            "SELECT 1 UNION SELECT 1, 2",
            "SELECTs to the left and right of UNION do not have the same number of result columns",
            None,
        ),
    ],
)
def test_wrong_sql(text: str, message: str | None, place: int | None) -> None:
    made = shop.tried("SELECT name FROM customer", text).outcome
    if message is None:
        assert isinstance(made, verdict.Refusal) and made.cause == verdict.Cause.BARRED
    else:
        cause = verdict.Cause.NAME if message.startswith("no such") else verdict.Cause.SYNTAX
        assert made == verdict.Refusal(False, cause, message, place)
        assert shop.tried(text, "SELECT name FROM customer").outcome == verdict.Refusal(
            True, cause, message, place
        )


def test_names_in_double_quotes_that_are_known() -> None:
    for text in (
        'SELECT "name" FROM "customer"',
        'SELECT c."Name" AS "n" FROM customer "c" ORDER BY "n"',
        'WITH "w"("x", y) AS (SELECT id, name FROM customer) SELECT "x", "y" FROM "w"',
        'SELECT id "Number" FROM customer',
        'SELECT count(*) "n" FROM customer GROUP BY city HAVING "n" > 0',
    ):
        assert isinstance(shop.tried(text, text).outcome, NoDifference), text


def test_a_query_that_fails_on_some_rows() -> None:
    made = found(
        "SELECT count(*) FROM item",
        (
            "SELECT CASE WHEN count(*) > 1 THEN abs(-9223372036854775807 - 1) ELSE count(*) END"
            " FROM item"
        ),
    )
    assert made.difference == FAILURE and "overflow" in made.answer.failure and len(made.kept) > 2


def test_rows_that_break_a_rule_stand_in_no_part(tmp_path: Path) -> None:
    (tmp_path / "schema.sql").write_text(
        "CREATE TABLE a (x INTEGER PRIMARY KEY, y INTEGER NOT NULL CHECK (y >= 0 OR y IN (-1,"
        ' -2)));\nCREATE TABLE b (x INTEGER REFERENCES a, "the Y" TEXT CHECK ("the Y" <>'
        " 'no'));\n"
    )
    (tmp_path / "a.csv").write_text("x,y\n1,5\n2,\n3,-1\n4,-3\n,5\n")
    (tmp_path / "b.csv").write_text("x,the Y\n1,yes\n2,yes\n3,no\n4,yes\n,yes\n")
    pool = of_exercise(tmp_path)
    made = of_schema(pool, "sqlite")
    lawful = [(0, 0), (0, 2), (1, 0), (1, 4)]
    assert sorted(pool.lawful) == lawful
    assert sorted(from_json(json.loads(json.dumps(to_json(made)))).pool.lawful) == lawful


def test_sums_of_fractions_in_another_order_are_the_same() -> None:
    pair = "SELECT AVG(qty * 0.1) FROM item", "SELECT SUM(qty) * 0.1 / COUNT(*) FROM item"
    assert isinstance(shop.tried(*pair).outcome, NoDifference)


def test_the_process_answers_the_same() -> None:
    of = shop.material()
    with trier(of) as made:
        for reference, answer, _ in PAIRS[:3]:
            told = made.ask(reference, answer)
            assert told == shop.tried(reference, answer, of=of)
            assert told.engine == f"sqlite {sqlite3.sqlite_version}"
        assert isinstance(made.ask("SELECT 1", "SELECT nosuch").outcome, verdict.Refusal)


def test_options_reach_the_process() -> None:
    of = shop.material()
    pair = "SELECT DISTINCT city FROM customer", "SELECT city FROM customer"
    with trier(of, Options(counts_duplicates=True)) as made:
        told = made.ask(*pair).outcome
        assert isinstance(told, Differs) and told.difference == DUPLICATES


def test_every_verdict_is_read_back() -> None:
    blob = Differs(
        ROWS,
        (verdict.WitnessRow("t", 1, (b"\x00", 1.5, None, "x")),),
        verdict.Side(1, (("a",),)),
        verdict.Side(0, (), "why"),
        (verdict.Line(("a",), 1, 0),),
        ALL,
        3,
    )
    outcomes: list[verdict.Outcome] = [
        blob,
        NoDifference(0, 1, 2, True),
        NotDetermined(True, False),
        verdict.Refusal(False, verdict.Cause.DIALECT, "m", 3, "PostgreSQL"),
        verdict.Refusal(True, verdict.Cause.BARRED, "m"),
        verdict.Refusal(False, verdict.Cause.LIMIT, "time"),
    ]
    for outcome in outcomes:
        made = Verdict(
            "sqlite 3",
            outcome,
            (verdict.Remark(DUPLICATES, verdict.Line(("a",), 1, 2)), verdict.Remark(ORDER)),
        )
        assert verdict.from_json(json.loads(json.dumps(verdict.to_json(made)))) == made


def test_the_time_ends_a_search() -> None:
    """Without a row that can go, and no more is said of it than that."""
    of = shop.material(customers=40, products=30, orders=60, items=200)
    parts = Parts(of.pool)
    pair = (
        "SELECT count(*) > 30 FROM orders NATURAL JOIN product",
        "SELECT count(*) > 31 FROM orders NATURAL JOIN product",
    )
    search = Search(Sqlite(of, parts, *pair), parts, of, pair, Wanted(seconds=0.5, random_parts=10))
    made = search.outcome()
    if isinstance(made, Differs):
        assert (
            made.least in (verdict.EACH, verdict.NOTHING) and "fewer" in words.least(made).lower()
        )
    else:
        assert isinstance(made, NoDifference)


def test_looks_stand_for_the_time(monkeypatch: pytest.MonkeyPatch) -> None:
    """So a search ends at the same part on any machine, however slow it is."""
    of = shop.material(customers=40, products=30, orders=60, items=200)
    parts = Parts(of.pool)
    same = (
        "SELECT customer FROM orders WHERE no > 1 GROUP BY customer",
        "SELECT DISTINCT customer FROM orders WHERE NOT no <= 1",
    )
    other = "SELECT MIN(qty) FROM item", "SELECT MIN(qty) + 1 FROM item WHERE qty > 1"

    def found() -> list[verdict.Outcome]:
        made = []
        for pair, looks in itertools.product((same, other), (30, 3000)):
            search = Search(
                Sqlite(of, parts, *pair), parts, of, pair, Wanted(seconds=10.0, looks=looks)
            )
            made.append(search.outcome())
            assert pair == other or looks <= search.looks.tried <= looks + 2
        return made

    fast = found()
    hours = itertools.count(0.0, 3600.0)
    monkeypatch.setattr(Sqlite, "clock", staticmethod(lambda: next(hours)))
    assert found() == fast and [type(of) for of in fast] == [NoDifference] * 2 + [Differs] * 2
