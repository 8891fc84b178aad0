"""The table of verdicts, row by row: what `ratest` says, what the exercise's engine says, and what
comes of both."""
from __future__ import annotations

from dataclasses import replace
from pathlib import Path

import pytest

from classroom.exercise.exercise import Answer, Task
from classroom.exercise.settings import Settings
from classroom.grading.decide import decide
from classroom.grading.graded import Graded
from classroom.sql.clean import CleanText
from classroom.verdict import sentences, witness
from classroom.verdict.compare import COLUMNS, DUPLICATES, FAILURE, ORDER, ROWS
from classroom.verdict.decision import NOT_PROVED, PROVED, Decision
from classroom.verdict.verdict import (
    ALL,
    Cause,
    Differs,
    NoDifference,
    NotDetermined,
    Outcome,
    Refusal,
    Remark,
    Side,
    Verdict,
)

ENGINE = "sqlite 3.40.1"
QUERY = b"SELECT name\nFROM drinker"
TASK = Task("1", Path("1"), reference=b"SELECT name FROM drinker")
ANSWER = Answer("ann", CleanText(QUERY, QUERY))
DEFAULT = Settings()
STRICT = Settings(duplicates="wrong", order="wrong")
AGREE = witness.Agree()
WITNESS = witness.Witness((witness.Kept("t", 1, ("a",)),), (), (), ())
COLUMNS_DIFFER = witness.Refused("queries", "numbers of columns differ", None)
UNREAD = witness.Refused("query 2", "not supported: count", None)
SPENT = witness.Undecided(7, None)
LIMIT = witness.Limit("work 9 is above 5")
LATE = witness.NoVerdict("time")
OPEN = (UNREAD, SPENT, LIMIT, LATE)
SAME = NoDifference(4, 0, 0, False)
SIDE = Side(1, ((1,),))


def differs(kind: str, reference: Side = SIDE, answer: Side = SIDE) -> Differs:
    return Differs(kind, (), reference, answer, (), ALL, 1)


def decided(
    proof: witness.Outcome | None,
    outcome: Outcome | None,
    said: Settings = DEFAULT,
    remarks: tuple[Remark, ...] = (),
    task: Task = TASK,
    answer: Answer = ANSWER,
) -> Decision:
    trial = Verdict(ENGINE, outcome, remarks) if outcome else None
    return decide(task, answer, proof, trial, said)


def points(made: Decision) -> str:
    """As the table has them."""
    share = Graded(TASK, ANSWER, made).share
    words: dict[float | None, str] = {None: "by hand", 0: "0", 1: "all"}
    return words[share]


def test_no_text_of_one_query() -> None:
    made = decided(None, None, answer=Answer("ann", fault="more than one statement"))
    assert (made.grade, made.fault, points(made)) == (
        "not read",
        "more than one statement",
        "by hand",
    )
    assert made.by == ""


@pytest.mark.parametrize("outcome", [None, SAME, Refusal(False, Cause.LIMIT, "time")])
def test_agrees_and_nothing_else(outcome: Outcome | None) -> None:
    made = decided(AGREE, outcome)
    assert (made.grade, made.by, points(made), made.notes) == ("agrees", PROVED, "all", ())


@pytest.mark.parametrize(
    "outcome",
    [
        None,
        NotDetermined(True, False),
        Refusal(False, Cause.LIMIT, "time"),
        Refusal(True, Cause.SYNTAX, "m"),
        Refusal(False, Cause.BARRED, "m"),
    ],
)
@pytest.mark.parametrize(
    ("said", "looks"),
    [
        (Settings(duplicates="wrong"), "duplicates"),
        (Settings(order="wrong"), "order"),
        (STRICT, "duplicates and order"),
    ],
)
def test_agrees_where_nobody_looked_at_what_counts(
    outcome: Outcome | None, said: Settings, looks: str
) -> None:
    made = decided(AGREE, outcome, said)
    assert (made.grade, made.by, points(made)) == ("agrees", PROVED, "by hand")
    assert [sentences.note(note) for note in made.notes] == [
        f"agrees as a set; no database looked at {looks}, which counts as wrong"
    ]


def test_agrees_and_a_database_looked() -> None:
    assert points(decided(AGREE, SAME, STRICT)) == "all"


@pytest.mark.parametrize("kind", [DUPLICATES, ORDER])
def test_agrees_and_differs_slightly(kind: str) -> None:
    made = decided(AGREE, SAME, remarks=(Remark(kind),))
    assert (made.grade, made.by, points(made)) == ("agrees", PROVED, "all")
    assert [note.is_slight for note in made.notes] == [True]
    ignoring = Settings(duplicates="ignore", order="ignore")
    assert decided(AGREE, SAME, ignoring, (Remark(kind),)).notes == ()
    made = decided(AGREE, differs(kind), STRICT)
    assert (made.grade, made.by, points(made)) == ("differs", ENGINE, "0")


def test_agrees_and_the_database_answers_otherwise() -> None:
    made = decided(AGREE, SAME, remarks=(Remark(ROWS),))
    assert (made.grade, made.by, points(made)) == ("agrees", PROVED, "by hand")
    assert "the database with its own types answers otherwise" in sentences.note(made.notes[0])


@pytest.mark.parametrize("proof", [WITNESS, COLUMNS_DIFFER, witness.Undecided(7, WITNESS.kept)])
def test_a_witness_or_other_columns(proof: witness.Outcome) -> None:
    made = decided(proof, None)
    assert (made.grade, made.by, points(made)) == ("differs", PROVED, "0")
    assert decided(proof, SAME) == made


@pytest.mark.parametrize("cause", [Cause.SYNTAX, Cause.NAME, Cause.BARRED, Cause.LIMIT])
def test_refuses_the_reference_and_the_engine_does_too(cause: Cause) -> None:
    task = replace(TASK, fault="reference.sql: not supported: count")
    made = decided(None, Refusal(True, cause, "m"), task=task)
    assert (made.grade, points(made), made.by) == ("not graded", "by hand", "")
    assert "m" in made.of_reference and "m" not in made.fault.split()
    # The engine reads a reference that `ratest` refuses.
    made = decided(None, SAME, task=task)
    assert (made.grade, points(made), made.by) == ("no difference found", "all", ENGINE)


@pytest.mark.parametrize("proof", OPEN)
def test_no_difference(proof: witness.Outcome) -> None:
    made = decided(proof, SAME)
    assert (made.grade, made.by, points(made)) == ("no difference found", ENGINE, "all")
    made = decided(proof, SAME, Settings(tried="by hand"))
    assert (made.grade, made.by, points(made)) == ("no difference found", ENGINE, "by hand")


@pytest.mark.parametrize("proof", OPEN)
@pytest.mark.parametrize("kind", [ROWS, COLUMNS, FAILURE])
def test_differs(proof: witness.Outcome, kind: str) -> None:
    failing = Side(0, (), "division by zero" if kind == FAILURE else "")
    made = decided(proof, differs(kind, answer=failing))
    assert (made.grade, made.by, points(made)) == ("differs", ENGINE, "0")
    assert ("division by zero" in made.fault) == (kind == FAILURE)


@pytest.mark.parametrize("proof", OPEN)
@pytest.mark.parametrize("cause", [Cause.SYNTAX, Cause.NAME])
def test_refuses_its_syntax_or_a_name(proof: witness.Outcome, cause: Cause) -> None:
    made = decided(proof, Refusal(False, cause, "no such column: nmae", 12))
    assert (made.grade, made.by, points(made)) == ("wrong SQL", ENGINE, "0")
    assert made.fault == "no such column: nmae (line 2, column 1)"


@pytest.mark.parametrize("proof", OPEN)
@pytest.mark.parametrize(
    ("cause", "grade"),
    [
        (Cause.DIALECT, "not read"),
        (Cause.HELD, "not read"),
        (Cause.UNSUPPORTED, "not read"),
        (Cause.BARRED, "not read"),
        (Cause.LIMIT, "no verdict"),
    ],
)
def test_refuses_what_is_no_fault(proof: witness.Outcome, cause: Cause, grade: str) -> None:
    made = decided(proof, Refusal(False, cause, "m", 3, "PostgreSQL"))
    assert (made.grade, made.by, points(made)) == (grade, "", "by hand")


@pytest.mark.parametrize("proof", OPEN)
def test_depends_on_the_order(proof: witness.Outcome) -> None:
    made = decided(proof, NotDetermined(False, True))
    assert (made.grade, made.by, points(made)) == ("not determined", ENGINE, "by hand")


@pytest.mark.parametrize(
    ("proof", "grade", "fault"),
    [
        (UNREAD, "not read", "not supported: count"),
        # Whatever `ratest` refuses: no engine said that it is wrong.
        (witness.Refused("query 2", "syntax fault near byte 3", 3), "not read", "syntax fault"),
        (witness.Refused("query 2", "unknown column: nmae", None), "not read", "unknown column"),
        (SPENT, "no verdict", "7 conflicts were not enough"),
        (LIMIT, "no verdict", "passes a limit: work 9 is above 5"),
        (LATE, "no verdict", "passes the limit of time"),
        (None, "no verdict", "it was not run"),
    ],
)
def test_not_asked(proof: witness.Outcome | None, grade: str, fault: str) -> None:
    made = decided(proof, None)
    assert (made.grade, made.by, points(made)) == (grade, "", "by hand")
    assert made.fault.startswith(fault)


@pytest.mark.parametrize("outcome", [None, SAME, differs(ROWS), Refusal(False, Cause.NAME, "m")])
@pytest.mark.parametrize(
    ("proof", "how"),
    [
        (witness.Died(-11, ""), "ratest was ended by signal 11"),
        (witness.Died(0, "agree\nagree\n"), "ratest ended with status 0"),
    ],
)
def test_ended_by_a_signal_or_unreadable(
    proof: witness.Died, how: str, outcome: Outcome | None
) -> None:
    made = decided(proof, outcome)
    assert (made.grade, made.by, points(made)) == ("no verdict", "", "by hand")
    assert made.has_died and made.fault.startswith(how)


@pytest.mark.parametrize("proof", [AGREE, WITNESS])
def test_a_build_without_proofs_is_named(proof: witness.Outcome) -> None:
    assert decide(TASK, ANSWER, proof, None, DEFAULT, NOT_PROVED).by == NOT_PROVED
