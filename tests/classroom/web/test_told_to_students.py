"""What a student reads of a verdict has nothing that a database said of the reference, and no rows
beyond what may be shown. These need no program: verdicts are written by hand."""
from __future__ import annotations

from dataclasses import replace
from pathlib import Path

import pytest

from classroom.views import outcomes
from classroom.grading import grades_files
from classroom.verdict import witness
from classroom.exercise.exercise import Answer, Task
from classroom.grading.graded import Graded
from classroom.grading.decide import decide
from classroom.verdict.decision import Grade
from classroom.views.answer import answer_of
from classroom.web.ask import shows_rows
from classroom.exercise.settings import Settings
from classroom.sql.clean import CleanText
from classroom.verdict.compare import DUPLICATES, FAILURE, ORDER, ROWS
from classroom.verdict.verdict import (
    ALL,
    Cause,
    Differs,
    Line,
    NoDifference,
    Outcome,
    Refusal,
    Remark,
    Side,
    Verdict,
)

ENGINE = "sqlite 3.40.1"
SECRET = "only_in_the_reference"
REFUSED = witness.Refused("query 2", "not supported: count", None)


def answer(query: bytes = b"SELECT count(*) FROM t") -> Answer:
    return Answer("ann", CleanText(query, query))


def tried(found: Verdict, said: Settings = Settings(), proof: witness.Outcome = REFUSED) -> Graded:
    """An answer that `ratest` leaves open, with what a database says."""
    task = Task("1", Path("1"), reference=b"SELECT a FROM t")
    made = decide(task, answer(), proof, found, said)
    return Graded(task, answer(), made, proof, trial=found)


def differs(difference: str, failure: str = "") -> Differs:
    side = Side(1, ((1,),))
    return Differs(
        difference,
        (),
        replace(side, lines=(), failure=failure) if failure else side,
        side,
        (),
        ALL,
        1,
    )


@pytest.mark.parametrize(
    "outcome",
    [
        Refusal(True, Cause.SYNTAX, f'near "{SECRET}": syntax error'),
        Refusal(True, Cause.BARRED, f"it calls {SECRET}"),
    ],
)
@pytest.mark.parametrize(
    ("proof", "grade"),
    [(REFUSED, Grade.NOT_READ), (witness.Limit("rows"), Grade.NO_VERDICT)],
)
def test_why_a_database_refuses_the_reference_is_for_the_teacher(
    outcome: Outcome, proof: witness.Outcome, grade: Grade
) -> None:
    of = tried(Verdict(ENGINE, outcome), proof=proof)
    assert (of.grade, of.share) == (grade, None)
    assert SECRET not in outcomes.words(of)
    assert all(
        SECRET in text
        for text in (
            outcomes.whole_words(of),
            of.why,
            of.reason,
            grades_files.answer_text(of).decode(),
        )
    )


@pytest.mark.parametrize(
    "outcome",
    [
        Refusal(True, Cause.NAME, "no such table: t"),
        Refusal(True, Cause.BARRED, "it calls printf"),
        Refusal(True, Cause.LIMIT, "time"),
        Refusal(False, Cause.LIMIT, "time"),
        Refusal(False, Cause.BARRED, "it calls printf"),
    ],
)
def test_what_no_database_decided_names_none(outcome: Outcome) -> None:
    of = tried(Verdict(ENGINE, outcome), proof=witness.Limit("rows"))
    assert (of.decided_by, of.is_tried) == ("", False)


def test_how_the_reference_fails_is_for_the_teacher() -> None:
    found = Verdict(ENGINE, differs(FAILURE, f"invalid input: {SECRET}"))
    of = tried(found)
    assert (
        of.grade == Grade.DIFFERS
        and SECRET in of.why
        and SECRET in grades_files.answer_text(of).decode()
    )
    shown = answer_of(REFUSED, "SELECT count(*) FROM t", (), 10, None, found)
    assert "The reference fails." in shown.told
    assert not any(
        SECRET in text
        for text in (
            shown.words,
            shown.told,
            outcomes.words(of),
            outcomes.told(of),
            grades_files.output(of),
        )
    )


@pytest.mark.parametrize(
    ("outcome", "known"), [(witness.Agree(), "Agrees as a set"), (REFUSED, "The same as a set")]
)
def test_a_row_of_a_remark_counts_as_one_that_is_shown(
    outcome: witness.Outcome, known: str
) -> None:
    found = Verdict(
        ENGINE, NoDifference(4, 0, 0, False), (Remark(DUPLICATES, Line(("Ann",), 1, 2)),)
    )
    text = "SELECT name FROM t UNION ALL SELECT name FROM t"
    assert shows_rows(outcome, found) and not shows_rows(
        outcome, replace(found, remarks=(Remark(ORDER),))
    )
    shown, hidden = (answer_of(outcome, text, (), 10, hides, found).told for hides in (None, ""))
    assert f"{known}; returns Ann twice where the reference returns it once." in shown
    assert f"{known}; returns a row another number of times." in hidden and "Ann" not in hidden


@pytest.mark.parametrize(
    ("difference", "is_shown"), [(ROWS, True), (DUPLICATES, False), (ORDER, False)]
)
def test_a_text_that_is_right_as_a_set_is_in_no_page_for_students(
    difference: str, is_shown: bool
) -> None:
    of = tried(Verdict(ENGINE, differs(difference)), Settings(duplicates="wrong", order="wrong"))
    assert of.grade == Grade.DIFFERS
    assert outcomes.STUDENTS.shows_text(of) == is_shown
    assert outcomes.TEACHER.shows_text(of)
