"""What is read of printed texts, on hostile names and texts."""
from __future__ import annotations

import itertools
import sqlite3

import pytest

import ratest
from ratest import printed
from ratest.printed import (
    Agree,
    Grade,
    Kept,
    Limit,
    Never,
    Refused,
    Undecided,
    Unreadable,
    Witness,
    grades_of,
    outcome_of,
)
from ratest.schema import Column, Table

TABLES = (
    Table("t", (Column("a", "INTEGER"), Column("b", "TEXT"))),
    Table("t 1: 5, ", (Column("a", "INTEGER"),)),
)
# Texts and names that look like what the programs print.
HOSTILE = [
    "'",
    "''",
    ", ",
    "\n",
    "'\nt 1: 1, 'x",
    "\nonly query 1: 0\nonly query 2: 0\nboth: 0\n",
    "NULL",
    "5",
    "x\n2: agree",
    "\n\ngraded: 1\n",
    "a: b",
    "query 1",
    "\u202e",
    "\x00",
    "<b>&\"'",
]


@pytest.mark.parametrize(
    "status, out, err, outcome",
    [
        (0, "agree\n", "", Agree()),
        (0, "never\n", "", Never()),
        (
            1,
            "witness: 1\nt 2: 5, 'x'''\nonly query 1: 1\n  NULL, -7\nonly query 2: 0\nboth: 0\n",
            "",
            Witness((Kept("t", 2, (5, "x'")),), ((None, -7),), (), ()),
        ),
        (
            1,
            (
                "witness: 2\nt 1: 5, 'x'\nt 1: 5,  3: 4\nonly query 1: 0\nonly query 2: 0\nboth:"
                " 1\n  'a\nb'\n"
            ),
            "",
            Witness((Kept("t", 1, (5, "x")), Kept("t 1: 5, ", 3, (4,))), (), (), (("a\nb",),)),
        ),
        (4, "undecided: 7 conflicts\n", "", Undecided(7, None)),
        (
            4,
            "undecided: 7 conflicts\nbest so far: 1\nt 9: -1, NULL\n",
            "",
            Undecided(7, (Kept("t", 9, (-1, None)),)),
        ),
        (3, "", "ratest: schema: name twice: a\nb\n", Refused("schema", "name twice: a\nb", None)),
        (
            3,
            "",
            "ratest: query 2: syntax fault near byte 12\n",
            Refused("query 2", "syntax fault near byte 12", 12),
        ),
        (3, "", "ratest: row: not an integer\n", Refused("row", "not an integer", None)),
        (
            3,
            "",
            "ratest: table t 1: 5, : header differs from the schema\n",
            Refused("table t 1: 5, ", "header differs from the schema", None),
        ),
        (5, "", "ratest: limit: more than 2000 rows\n", Limit("more than 2000 rows")),
    ],
)
def test_what_is_printed(status: int, out: str, err: str, outcome: object) -> None:
    assert outcome_of(status, out, err, TABLES) == outcome


@pytest.mark.parametrize(
    "status, out, err",
    [
        (0, "", ""),
        (0, "agree", ""),
        (0, "agree\nagree\n", ""),
        (1, "agree\n", ""),
        (0, "witness: 0\n", ""),
        (2, "", "usage"),
        (1, "witness: 1\nu 2: 5\nonly query 1: 0\nonly query 2: 0\nboth: 0\n", ""),
        (6, "", "ratest: cannot read query 1\n"),
        (1, "witness: 1\nt 2: 5, 'x\nonly query 1: 0\nonly query 2: 0\nboth: 0\n", ""),
        (3, "", ""),
        (5, "", ""),
        (7, "", ""),
        (1, "witness: 1\nt 02: 5, 'x'\nonly query 1: 0\nonly query 2: 0\nboth: 0\n", ""),
        (4, "undecided: x conflicts\n", ""),
    ],
)
def test_what_no_program_prints(status: int, out: str, err: str) -> None:
    with pytest.raises(Unreadable):
        outcome_of(status, out, err, TABLES)


def test_grades() -> None:
    text = (
        "1: agree\n2: witness 3\n3: refused: unknown column: x\n2: agree\n4: undecided\n5: work"
        " 77\n6: too long\n7: refused: a\n\ngraded: 1\n\ngraded: 7\n"
    )
    assert grades_of(text, [str(number) for number in range(1, 8)]) == [
        Grade("agrees", None, ""),
        Grade("differs", 3, ""),
        Grade("refused", None, "unknown column: x\n2: agree"),
        Grade("undecided", None, ""),
        Grade("limit", None, "work 77"),
        Grade("limit", None, "too long"),
        Grade("refused", None, "a\n\ngraded: 1\n"),
    ]
    for wrong in (
        "",
        text[:-1],
        text.replace("graded: 7", "graded: 8"),
        text.replace("4: ", "5: "),
        text + "x",
    ):
        with pytest.raises(Unreadable):
            grades_of(wrong, [str(number) for number in range(1, 8)])


def test_certificates() -> None:
    assert (
        printed.valid_of("valid: agree\n") is None and printed.valid_of("valid: witness 12\n") == 12
    )
    assert printed.rejected_of("ratest: certificate: rejected: not lawful\n") == "not lawful"
    assert (
        printed.rejected_of("ratest: certificate: malformed at line 3\n") == "malformed at line 3"
    )
    for wrong in ("", "valid: witness \n", "valid: agree\n\n"):
        with pytest.raises(Unreadable):
            printed.valid_of(wrong)


def quoted(name: str) -> str:
    return '"' + name.replace('"', '""') + '"'


@pytest.mark.parametrize("text", [text for text in HOSTILE if text != "\x00"])
def test_hostile_texts_come_back(shared: object, text: str) -> None:
    """As a value, as the name of a table and a column, and as the name of an answer."""
    # A blank at the end of a column's name can't stand in a CSV file.
    table, column = quoted(text), f"c{text}c"
    schema = f"CREATE TABLE {table} ({quoted(column)} TEXT, n INTEGER)"
    query = f"SELECT {quoted(column)}, n FROM {table}"
    answer = ratest.explain(schema, {text: [[text, 1], [None, 2]]}, query, f"{query} WHERE n > 1")
    assert isinstance(answer, ratest.Witness) and answer.size == 1
    assert answer.kept == {text: ratest.KeptRows((column, "n"), (1,), ((text, 1),))}
    assert (answer.only_first, answer.only_second, answer.both) == (((text, 1),), (), ())
    database = sqlite3.connect(":memory:")
    database.executescript(answer.to_sql())
    assert database.execute(f"SELECT * FROM {table}").fetchall() == [(text, 1)]
    assert "<b>" not in answer._repr_html_()
    assert ratest.grade(
        schema,
        {text: [[text, 1]]},
        query,
        {text: query, f"{text}2": f"SELECT {quoted('no' + text)} FROM {table}"},
    ) == {
        text: ratest.Grade("agrees", None, ""),
        f"{text}2": ratest.Grade("refused", None, f"unknown column: no{text}"),
    }
    assert (
        ratest.why(schema, {text: [[text, 1], [None, 2]]}, query, f"{query} WHERE n > 1", (text, 1))
        == answer
    )


def test_pairs_of_hostile_tables(shared: object) -> None:
    names = [name for name in HOSTILE if "\x00" not in name]
    for first, second in itertools.islice(itertools.permutations(names, 2), 60):
        schema = f"CREATE TABLE {quoted(first)} (a TEXT); CREATE TABLE {quoted(second)} (a TEXT)"
        answer = ratest.explain(
            schema,
            {first: [[second]], second: [[first]]},
            f"SELECT a FROM {quoted(second)}",
            f"SELECT a FROM {quoted(first)}",
        )
        # Either row alone shows the difference, and the first of these choices is the one without
        # the first row.
        assert isinstance(answer, ratest.Witness) and answer.size == 1
        assert sum(len(rows.rows) for rows in answer.kept.values()) == 1 and set(answer.kept) <= {
            first,
            second,
        }
