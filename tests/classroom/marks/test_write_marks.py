"""Lines of class/marks.csv that are written beside those of others."""
from __future__ import annotations

import stat
import threading
from collections.abc import Callable, Iterable, Iterator, Sequence
from decimal import Decimal
from pathlib import Path

import pytest

from classroom.base.errors import Fault
from classroom.marks import hand, write_marks
from classroom.marks.hand import Line

HEADER = "task,student,text,mistake,outcome,points,comment,rule,by,time\n"
MOST = {"1": Decimal(2), "2": Decimal(1), "10": Decimal(1)}


def line(task: str, student: str, points: str, comment: str = "") -> Line:
    values = {"task": task, "student": student, "points": points, "comment": comment}
    return write_marks.line_of(values, MOST)


def put(path: Path, *lines: Line) -> str:
    return write_marks.change(path, MOST, write_marks.putting(lines)).decode()


def test_lines_are_sorted_one_a_mark(tmp_path: Path) -> None:
    path = tmp_path / "class/marks.csv"
    put(path, line("10", "ben", "1"), line("2", "Zoe", "0.5", "=1+1"), line("1", "zoe", "1"))
    put(path, line("2", "ana", "1", "two\r\nlines"), line("2", "ZOE", "0,25", "again; and again"))
    assert path.read_text() == (
        HEADER
        + "1,zoe,,,,1,,,,\n"
        + '2,ana,,,,1,"two\nlines",,,\n'
        + '2,ZOE,,,,"0,25",again; and again,,,\n'
        + "10,ben,,,,1,,,,\n"
    )
    assert [one.given.points for one in hand.read(path, MOST)] == [
        Decimal(1),
        Decimal(1),
        Decimal("0.25"),
        Decimal(1),
    ]
    write_marks.change(path, MOST, write_marks.removing([line("2", "zoe", "1")]))
    assert "ZOE" not in path.read_text() and path.read_text().count("\n") == 5
    assert [one.name for one in path.parent.iterdir()] == ["marks.csv"]


def test_what_a_spreadsheet_wrote_stays_as_it_parts_it(tmp_path: Path) -> None:
    path = tmp_path / "marks.csv"
    head = "\ufeff" + HEADER.replace(",", ";").replace("\n", "\r\n")
    path.write_bytes((head + "1;ben;;;;0,5;'=so;;ana;noon\r\n").encode())
    path.chmod(0o640)
    put(path, line("1", "ana", "1"))
    assert path.read_bytes().decode() == (
        head + "1;ana;;;;1;;;;\r\n" + "1;ben;;;;0,5;'=so;;ana;noon\r\n"
    )
    assert stat.S_IMODE(path.stat().st_mode) == 0o640


def test_texts_that_begin_alike_are_one_line(tmp_path: Path) -> None:
    path = tmp_path / "marks.csv"

    def of_text(text: str, points: str) -> Line:
        return write_marks.line_of({"task": "1", "text": text, "points": points}, MOST)

    put(path, of_text("0123456789abcdef", "1"))
    put(path, of_text("0123456789ab", "2"))
    assert path.read_text() == HEADER + "1,,0123456789ab,,,2,,,,\n"


def test_an_edit_meanwhile_is_not_lost(tmp_path: Path) -> None:
    """An editor, which takes no lock, writes between our reading and our writing."""
    path = tmp_path / "marks.csv"
    path.write_text(HEADER + "1,ben,,,,1,,,,\n")
    edits = iter([HEADER + "1,ben,,,,2,by an editor,,,\n", ""])

    def how(before: Sequence[Line]) -> Iterable[Line]:
        text = next(edits)
        if text:
            path.write_text(text)
        return [*before, line("1", "ana", "1")]

    write_marks.change(path, MOST, how)
    assert path.read_text() == HEADER + "1,ana,,,,1,,,,\n" + "1,ben,,,,2,by an editor,,,\n"


def test_a_file_that_is_made_or_removed_meanwhile(tmp_path: Path) -> None:
    path = tmp_path / "marks.csv"
    steps: Iterator[Callable[[], object] | None] = iter(
        [lambda: path.write_text(HEADER + "1,ben,,,,1,,,,\n"), path.unlink, None]
    )

    def how(before: Sequence[Line]) -> Iterable[Line]:
        step = next(steps)
        if step:
            step()
        return [*before, line("1", "ana", "1")]

    write_marks.change(path, MOST, how)
    assert path.read_text() == HEADER + "1,ana,,,,1,,,,\n"


def test_many_at_once(tmp_path: Path) -> None:
    path = tmp_path / "marks.csv"
    threads = [
        threading.Thread(target=put, args=(path, line("1", f"s{at}", "1"))) for at in range(24)
    ]
    for one in threads:
        one.start()
    for one in threads:
        one.join()
    assert len(hand.read(path, MOST)) == 24


@pytest.mark.parametrize(
    "values, told",
    [
        ({"task": "3", "student": "a", "points": "1"}, "task: there is no task 3"),
        (
            {"task": "1", "student": "a", "points": "3"},
            "points: 3: from 0 to 2, unless the rule is bonus",
        ),
        ({"task": "1", "student": "a", "points": "x"}, "points: x is no number"),
        ({"task": "1", "points": "1"}, "student: a student, a text, a mistake or an outcome"),
        ({"task": "1", "student": "a", "points": "1", "comment": "\udcff"}, "comment: "),
    ],
)
def test_each_error_before_anything_is_written(values: dict[str, str], told: str) -> None:
    with pytest.raises(Fault) as fault:
        write_marks.line_of(values, MOST)
    assert str(fault.value).startswith(told)


def test_a_file_with_a_fault_is_left_as_it_is(tmp_path: Path) -> None:
    path = tmp_path / "marks.csv"
    path.write_text(HEADER + "1,ben,,,,9,,,,\n")
    with pytest.raises(Fault, match="marks.csv: line 2, column points: 9: from 0 to 2"):
        put(path, line("1", "ana", "1"))
    assert path.read_text() == HEADER + "1,ben,,,,9,,,,\n"
    assert [one.name for one in tmp_path.iterdir()] == ["marks.csv"]
