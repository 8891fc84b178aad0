"""The file class/marks.csv: each fault is one error with line and column, before anything is
written."""
from __future__ import annotations

from decimal import Decimal
from pathlib import Path

import pytest
from kept import without_seconds
from products import classroom

from classroom.base.errors import Fault
from classroom.marks import hand
from classroom.marks.mark import About, Given, Rule

HEADER = "task,student,text,mistake,outcome,points,comment,rule,by,time\n"
MOST = {"1": Decimal(2), "two": Decimal(1)}
TEXT = "0123456789abcdef"


def test_lines_as_a_spreadsheet_writes_them() -> None:
    comma = (
        HEADER
        + f'1, Ben ,{TEXT.upper()},,,1.5,"two\nlines",late,ana,2026-11-20\n\n1,,{TEXT},,,0,,,,\n'
    )
    semicolon = (
        HEADER.replace(",", ";")
        + "1;;;as the reference with < for <=;;0,5;;;;\n"
        + "two;;;;differs 0a1b2c3d;-1;'=1+1;bonus;;\n"
    )
    assert hand.lines_of(comma, MOST) == (
        hand.Line(
            2,
            "1",
            "ben",
            Given(About.STUDENT, Decimal("1.5"), "two\nlines", Rule.LATE),
            "Ben",
            TEXT,
        ),
        hand.Line(5, "1", TEXT, Given(About.TEXT, Decimal(0)), "", TEXT),
    )
    mistake, outcome = hand.lines_of(semicolon, MOST)
    assert (mistake.value, mistake.given.points) == (
        "as the reference with < for <=",
        Decimal("0.5"),
    )
    # The apostrophe that keeps a spreadsheet from running it is not read back.
    assert outcome.given == Given(About.OUTCOME, Decimal(-1), "=1+1", Rule.BONUS)


FAULTS = [
    ("task;student\n", "line 1, column 3: text is wanted: "),
    ("", "line 1, column 1: task is wanted: "),
    (HEADER.replace("\n", ",more\n"), "line 1, column 11: there is no such column"),
    (HEADER.replace("rule", "rules"), "line 1, column 8: rule is wanted: "),
    (HEADER + "1,ben,,,,1,,,\n", "line 2, column time: the line has no such cell"),
    (HEADER + "1,ben,,,,1,,,,,\n", "line 2, column 11: more cells than columns"),
    (HEADER + "9,ben,,,,1,,,,\n", "line 2, column task: there is no task 9"),
    (HEADER + "1,ben,,,,,,,,\n", "line 2, column points:  is no number"),
    (HEADER + "1,ben,,,,one,,,,\n", "line 2, column points: one is no number"),
    (HEADER + "1,ben,,,,nan,,,,\n", "line 2, column points: nan is no number"),
    (HEADER + "1,ben,,,,1e3,,,,\n", "line 2, column points: 1e3 is no number"),
    (HEADER + "1,ben,,,,٢,,,,\n", "line 2, column points: ٢ is no number"),
    (
        HEADER + "1,ben,,,,2.5,,,,\n",
        "line 2, column points: 2.5: from 0 to 2, unless the rule is bonus",
    ),
    (HEADER + "two,ben,,,,1.01,,late,,\n", "line 2, column points: 1.01: from 0 to 1, unless"),
    (HEADER + "1,ben,,,,-1,,,,\n", "line 2, column points: -1: from 0 to 2, unless"),
    (
        HEADER + "1,ben,,,,1,,never,,\n",
        "line 2, column rule: never: nothing, late or bonus is wanted",
    ),
    (HEADER + "1,ben,0123,,,1,,,,\n", "line 2, column text: the first 8 to 64 digits"),
    (
        HEADER + "1,,,,,1,,,,\n",
        "line 2, column student: a student, a text, a mistake or an outcome",
    ),
    (HEADER + "1,ben,,x,,1,,,,\n", "line 2, column mistake: the line is about a student already"),
    (HEADER + f"1,,{TEXT},,x,1,,,,\n", "line 2, column outcome: the line is about a text already"),
    (HEADER + f"1,ben,{TEXT},,x,1,,,,\n", "line 2, column outcome: the line is about a student"),
    (
        HEADER + "1,ben,,,,1,,,,\n1,BEN,,,,0,,,,\n",
        "line 3, column student: line 2 is about the same",
    ),
    (HEADER + f"1,ben,{TEXT},,,1,,,,\n1,ben,,,,0,,,,\n", "line 3, column student: line 2 is about"),
    (
        HEADER + f"1,,{TEXT},,,1,,,,\n1,,{TEXT[:9]},,,0,,,,\n",
        "line 3, column text: line 2 is about",
    ),
    (HEADER + "1,,,x,,1,,,,\n1,,,x,,1,,,,\n", "line 3, column mistake: line 2 is about the same"),
    (HEADER + '1,ben,,,,1,"a\nb",,,\n1,ann,,,,x,,,,\n', "line 4, column points: x is no number"),
    (HEADER + '1,ben,,,,1,"a,,,\n', "line 2, column task: no line of CSV: "),
]


@pytest.mark.parametrize(("text", "why"), FAULTS, ids=[why for _, why in FAULTS])
def test_each_fault_is_one_error_with_line_and_column(text: str, why: str) -> None:
    with pytest.raises(Fault) as found:
        hand.lines_of(text, MOST)
    assert str(found.value).startswith(why)


def test_same_things_of_two_tasks_are_two() -> None:
    assert len(hand.lines_of(HEADER + "1,ben,,,,1,,,,\ntwo,ben,,,,1,,,,\n", MOST)) == 2


def test_bytes_that_are_no_text_are_told_by_their_place(tmp_path: Path) -> None:
    path = tmp_path / "marks.csv"
    assert hand.read(path, MOST) == ()
    path.write_bytes(HEADER.encode() + b"1,J\xf6rg,,,,1,,,,\n")
    with pytest.raises(Fault) as found:
        hand.read(path, MOST)
    assert str(found.value) == f"{path}: line 2, byte 4: not UTF-8"
    path.write_bytes(b"\xef\xbb\xbf" + HEADER.encode() + "1,Jörg,,,,1,,,,\n".encode())
    assert [line.student for line in hand.read(path, MOST)] == ["Jörg"]


@pytest.mark.parametrize("command", ["grade", "page", "feedback"])
def test_nothing_is_written_where_the_file_is_wrong(graded: Path, command: str) -> None:
    before = without_seconds(graded)
    (graded / "class").mkdir()
    (graded / "class/marks.csv").write_text(HEADER + "1,a,,,,7,,,,\n")
    ran = classroom(command, graded)
    assert ran.returncode == 1 and ran.stdout == ""
    assert ran.stderr == (
        f"classroom: {graded}/class/marks.csv: line 2, column points: 7: from 0 to 1, unless the"
        " rule is bonus\n"
    )
    assert without_seconds(graded) == before
