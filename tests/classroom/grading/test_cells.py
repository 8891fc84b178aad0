"""Tables that a teacher opens in a spreadsheet: no cell is a formula, and none says more than is
known."""
from __future__ import annotations

import csv
import io
import random
import re
from dataclasses import replace
from pathlib import Path

import pytest
from products import classroom

from classroom.views import outcomes
from classroom.exercise.exercise import Answer, Task
from classroom.base.csvcells import restored, safe
from classroom.verdict.decision import Decision, Grade
from classroom.grading.graded import Graded
from classroom.mutants import mutants_csv as told
from classroom.mutants import mutant_trials as trying
from classroom.mutants.proofs import NOT_FOUND, OPEN, REFUSED, TOLD, Verdict
from classroom.mutants.question import Question
from classroom.hints import mistakes_csv as table
from classroom.hints.mistake import Mistake
from classroom.hints.mistake import Told as Change
from classroom.verdict.compare import ROWS
from classroom.verdict.verdict import ALL, Cause, Differs, NoDifference, Outcome, Refusal, Side
from classroom.verdict.verdict import Verdict as Tried


def cells(content: bytes) -> list[list[str]]:
    return list(csv.reader(io.StringIO(content.decode(), newline="")))


def test_mutants() -> None:
    found = cells(
        told.csv_of(
            [
                told.Judged(
                    Question("=1", b"", b"-- a comment\nSELECT 1", "= for <", "1"),
                    Verdict(TOLD, 1, "+x"),
                )
            ]
        )
    )
    assert found[1] == [
        "'=1",
        "1",
        "'= for <",
        "told",
        "1",
        "'+x",
        "'-- a comment\nSELECT 1",
        "proved",
    ]


def test_what_a_database_tried_of_mutants_is_not_called_proved() -> None:
    kinds = {TOLD: "sqlite 3", NOT_FOUND: "sqlite 3", OPEN: "", REFUSED: ""}
    outcomes: tuple[Outcome, ...] = (
        Differs(ROWS, (), Side(1, ()), Side(1, ()), (), ALL, 1),
        NoDifference(1, 0, 0, False),
        Refusal(False, Cause.LIMIT, "time"),
        Refusal(False, Cause.BARRED, "x"),
    )
    made = [
        told.Judged(
            Question("1", b"", b"SELECT 1", "4 for 3", "1", True),
            trying.told_of(Tried("sqlite 3", of)),
        )
        for of in outcomes
    ]
    assert {one.verdict.kind: one.verdict.decided_by for one in made} == kinds
    assert (
        next(told.lines(["1"], made))
        == "task 1: 1 of 3 mutants told (tried), by sqlite 3 and not proved"
    )


def test_mistakes() -> None:
    found = cells(
        table.csv_of([table.Line("=1", "-x", "@p", "+k", "proved", ("=a b", "c d"), "=r")])
    )
    assert not [cell for cell in found[1] if cell.startswith(("=", "+", "-", "@"))]
    assert found[1][6] == "'=a b; c d"  # names may have blanks


def test_nothing_is_proved_where_no_change_was_found() -> None:
    change = Change("< for <=", "comparison", "the WHERE", "SELECT 1", "<", 7, 8)
    answers = {"ann": Mistake(), "ben": Mistake(repairs=(change,))}
    graded = [
        Graded(Task("1", Path("1")), Answer(name), Decision(Grade.DIFFERS, "proved"), key=name)
        for name in answers
    ]
    assert {one.names[0]: one.decided_by for one in table.lines(graded, answers)} == {
        "ann": "",
        "ben": "proved",
    }


def test_one_mistake_that_is_proved_and_tried_is_two_lines() -> None:
    change = Change("< for <=", "comparison", "the WHERE", "SELECT 1", "<", 7, 8)
    answers = {
        "ann": Mistake(repairs=(change,)),
        "ben": Mistake(repairs=(change,), decided_by="sqlite 3"),
        "zoe": Mistake(repairs=(change,)),
    }
    graded = [
        Graded(Task("1", Path("1")), Answer(name), Decision(Grade.DIFFERS, "proved"), key=name)
        for name in answers
    ]
    assert [(one.names, one.decided_by) for one in table.lines(graded, answers)] == [
        (("ann", "zoe"), "proved"),
        (("ben",), "sqlite 3"),
    ]
    tried = Tried("sqlite 3", Differs(ROWS, (), Side(1, ()), Side(1, ()), (), ALL, 1))
    graded[1] = replace(
        graded[1], trial=tried, decision=Decision(Grade.DIFFERS, "sqlite 3", is_tried=True)
    )
    assert [
        [of.answer.name for of in members] for members in outcomes.grouped(graded, answers)
    ] == [["ann", "zoe"], ["ben"]]


@pytest.mark.parametrize("seed", range(4))
def test_no_cell_begins_with_a_formula(seed: int) -> None:
    """Whichever sign a spreadsheet parts cells by; and what is read back is what was written."""
    chosen = random.Random(seed)
    for _ in range(20_000):
        cell = "".join(chosen.choices("=+-@;,\t\r\n'\" a", k=chosen.randrange(9)))
        made = safe(cell)
        parts = re.split(r"[;,\t\r\n]", made)
        assert not [part for part in parts if part.lstrip('"').startswith(("=", "+", "-", "@"))]
        assert restored(made) == cell


@pytest.mark.parametrize("name", ["b;=1+1;", "c,=1+1", "d\t=1+1", "=1+1"])
def test_no_file_has_a_formula(ratest: Path, beers: Path, name: str) -> None:
    """grades.csv and class.csv, parted by each sign."""
    (beers / f"1/answers/{name}.sql").write_text('SELECT ";=1+1;" FROM drinker')
    classroom("grade", beers)
    for path in (beers / "results").glob("*.csv"):
        text = path.read_text(encoding="utf-8")
        for sign in ",;\t":
            found = csv.reader(io.StringIO(text, newline=""), delimiter=sign)
            assert not [cell for line in found for cell in line if cell.startswith("=")], path
