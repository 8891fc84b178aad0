"""`classroom mark` without a page: what is open, and one line of class/marks.csv."""
from __future__ import annotations

import csv
import hashlib
import io
from pathlib import Path

import pytest
from products import classroom

HEADER = "task,student,text,mistake,outcome,points,comment,rule,by,time"
NOT_SQL = "what is this?"
TEXT = hashlib.sha256(NOT_SQL.encode()).hexdigest()[:12]


def put(folder: Path, name: str, text: str) -> None:
    (folder / name[1:] / "answers" / f"{name[0]}.sql").write_text(text)


@pytest.fixture
def left(graded: Path) -> Path:
    """Of task 1 the texts of a and d are one that nothing reads, that of b is another; the file of
    e is for no task."""
    for name in ("a1", "d1"):
        put(graded, name, NOT_SQL)
    put(graded, "b1", f"{NOT_SQL} and this?")
    (graded / "class").mkdir(exist_ok=True)
    (graded / "class/students.csv").write_text(
        "id,name,login\na,Ann,ann17\nb,Ben,\nc,Cem,\nd,Dan,\ne,Eve,\nf,Fay,\n"
    )
    (graded / "class/collected.csv").write_text(
        "task,answer,source,member,late,sha256,state,why\n"
        ",e,all.zip,e/homework.pdf,,,unplaced,it is a PDF\n"
    )
    assert classroom("grade", graded).returncode == 1
    return graded


def marks(folder: Path) -> list[list[str]]:
    """The lines without their times, which have a zone."""
    text = (folder / "class/marks.csv").read_text()
    rows = list(csv.reader(io.StringIO(text, newline="")))
    assert rows[0] == HEADER.split(",") and all(row[-1][-6:] == "+00:00" for row in rows[1:])
    return [row[:-1] for row in rows[1:]]


def table(folder: Path) -> dict[str, dict[str, str]]:
    text = (folder / "results/class.csv").read_text()
    return {row["id"]: row for row in csv.DictReader(io.StringIO(text, newline=""))}


def test_what_is_open_is_listed_by_groups(left: Path) -> None:
    ran = classroom("mark", left, "--list")
    assert (ran.returncode, ran.stderr) == (0, "")
    lines = ran.stdout.splitlines()
    # The most frequent first, then in the order of students; e's file may be for each task.
    assert [line.partition(": not read")[0] for line in lines[:2]] == [
        f"task 1: 2 answers of the text {TEXT}",
        "task 1: 1 answer of the text"
        f" {hashlib.sha256(f'{NOT_SQL} and this?'.encode()).hexdigest()[:12]}",
    ]
    assert lines[0].endswith("(a, d)") and lines[1].endswith("(b)")
    assert lines[2:] == [
        f"task {task}: 1 answer: no answer, and a file that could not be put to a task (e)"
        for task in "12345"
    ]


def test_one_line_is_one_mark(left: Path) -> None:
    ran = classroom("mark", left, "1", "ANN17", "0.25", "--comment", "=so\nso", "--by", "Ida")
    assert (ran.returncode, ran.stdout, ran.stderr) == (0, "task 1: 0.25 of 1 for a\n", "")
    assert marks(left) == [["1", "a", TEXT, "", "", "0.25", "'=so\nso", "", "Ida"]]
    found = table(left)
    assert (found["a"]["1"], found["d"]["1"]) == ("0.25", "by hand")
    assert 'aria-label="0.25: not read' in (left / "results/teacher.html").read_text()
    # Another text of the student, and the mark counts no more.
    put(left, "a1", NOT_SQL * 2)
    again = classroom("grade", left)
    assert "a, task 1: the mark was for an earlier text" in again.stderr
    assert table(left)["a"]["1"] == "by hand"


def test_a_mark_for_all_with_the_same(left: Path) -> None:
    words: list[str | Path] = [left, "1", "a", "0.5", "--same"]
    assert classroom("mark", *words, "text").stdout == "task 1: 0.5 of 1 for 2 answers\n"
    assert {key: table(left)[key]["1"] for key in "abd"} == {"a": "0.5", "b": "by hand", "d": "0.5"}
    assert classroom("mark", left, "1", "d", "1", "--by", "").returncode == 0
    ran = classroom("mark", left, "1", "d", "0.75", "--same", "text", "--by", "")
    assert ran.stdout == (
        "task 1: 0.75 of 1 for 1 answer; 1 more with the same have a line that goes before\n"
    )
    assert {key: table(left)[key]["1"] for key in "ad"} == {"a": "0.75", "d": "1"}
    assert marks(left) == [
        ["1", "d", TEXT, "", "", "1", "", "", ""],
        ["1", "", TEXT, "", "", "0.75", "", "", ""],
    ]
    ran = classroom("mark", left, "1", "b", "0.1", "--same", "outcome")
    assert ran.returncode == 0 and marks(left)[2][4].startswith("not read ")
    assert table(left)["b"]["1"] == "0.1"
    assert f"text {TEXT}" not in classroom("mark", left, "--list").stdout


def test_a_student_without_an_answer(left: Path) -> None:
    assert classroom("mark", left, "2", "f", "1", "--comment", "on paper").returncode == 0
    assert classroom("mark", left, "3", "e", "1").returncode == 0
    assert (table(left)["f"]["2"], table(left)["e"]["3"]) == ("1", "1")
    assert [row[:3] for row in marks(left)] == [["2", "f", ""], ["3", "e", ""]]


def test_rules(left: Path) -> None:
    ran = classroom("mark", left, "2", "a", "-1", "--rule", "bonus")
    assert ran.stdout == "task 2: -1 of 1 for a\n"
    assert table(left)["a"]["2"] == "-1"


FAULTS = [
    (("9", "a", "1"), "there is no task 9"),
    (("1", "zoe", "1"), "there is no student zoe"),
    (("1", "a", "two"), "points: two is no number"),
    (("1", "a", "1.01"), "points: 1.01: from 0 to 1, unless the rule is bonus"),
    (
        ("1", "f", "1", "--same", "text"),
        "the answer of f to task 1 has no text that was read",
    ),
    (
        ("1", "a", "1", "--same", "mistake"),
        "no mistake of the answer of a to task 1 is known: classroom mistakes looks for them",
    ),
]


def test_each_error_is_one_line_and_nothing_is_written(left: Path) -> None:
    for words, told in FAULTS:
        ran = classroom("mark", left, *words)
        assert (ran.returncode, ran.stdout, ran.stderr) == (1, "", f"classroom: {told}\n")
    for words in (("1",), ("1", "a"), ("1", "a", "1", "--list")):
        ran = classroom("mark", left, *words)
        assert ran.returncode == 2 and "--list" in ran.stderr
    assert not (left / "class/marks.csv").exists()
