"""From verdicts and class/marks.csv to every table that has points, and to what a student reads."""
from __future__ import annotations

import csv
import hashlib
import html
import io
import json
from decimal import ROUND_HALF_UP, Decimal
from pathlib import Path

import pytest
from products import classroom

from classroom.exercise import exercise
from classroom.grading.graded import Graded
from classroom.marks import mark_files
from classroom.marks.gradebook import gradebook
from classroom.people.roster import ClassList, Student
from classroom.sql.clean import CleanText
from classroom.verdict.decision import PROVED, Decision, Grade

hypothesis = pytest.importorskip(
    "hypothesis", reason="no hypothesis: apt-get install python3-hypothesis"
)
from hypothesis import strategies  # noqa: E402

HEADER = "task,student,text,mistake,outcome,points,comment,rule,by,time\n"
PEOPLE = "id,name,moodle,canvas\na,Ann,51,901\nb,Ben,52,902\nc,Cem,53,903\nd,Dan,54,904\n"
HOSTILE = "<script>alert(1)</script> & `x` | [a](javascript:b)"


def rows(path: Path) -> list[dict[str, str]]:
    return list(csv.DictReader(io.StringIO(path.read_bytes().decode(), newline="")))


def marked(folder: Path, *lines: str) -> Path:
    """The exercise with a class list and these lines of class/marks.csv."""
    (folder / "class").mkdir(exist_ok=True)
    (folder / "class/students.csv").write_text(PEOPLE)
    (folder / "class/marks.csv").write_text(HEADER + "".join(f"{line}\n" for line in lines))
    return folder


def points(folder: Path) -> dict[str, str]:
    """Of class.csv by student and task, as `a1`."""
    return {
        f"{row['id']}{task}": row[task]
        for row in rows(folder / "results/class.csv")
        for task in "12345"
    }


def grades(folder: Path) -> dict[str, dict[str, str]]:
    return {row["answer"] + row["task"]: row for row in rows(folder / "results/grades.csv")}


def put(folder: Path, name: str, text: str) -> str:
    """Hands a text in; gives its digest."""
    (folder / name[1:] / "answers" / f"{name[0]}.sql").write_text(text)
    return hashlib.sha256(text.encode()).hexdigest()


def test_each_line_holds_for_what_it_is_about(graded: Path) -> None:
    """Of task 1 two answers have one text, and all are one mistake after another."""
    folder = marked(graded)
    text = put(folder, "a1", "SELECT drinker FROM likes")
    put(folder, "b1", "SELECT drinker FROM likes")
    put(folder, "c1", "SELECT  drinker FROM likes")
    assert classroom("grade", folder).returncode == 0
    found = grades(folder)
    assert found["a1"]["text"] == text
    outcome = found["a1"]["outcome"]
    # The same verdict on the same rows, in another text.
    assert outcome == found["c1"]["outcome"] and outcome.startswith("differs ")
    of_outcome, of_text, of_student = (
        f"1,,,,{outcome},0.25,,,,",
        f"1,,{text[:8]},,,0.5,,,,",
        f"1,B,{text[:12]},,,0.75,,,,",
    )
    steps: list[tuple[list[str], dict[str, str]]] = [
        ([of_outcome], {"a1": "0.25", "b1": "0.25", "c1": "0.25"}),
        ([of_outcome, of_text], {"a1": "0.5", "b1": "0.5", "c1": "0.25"}),
        ([of_outcome, of_text, of_student], {"a1": "0.5", "b1": "0.75", "c1": "0.25"}),
        ([], {"a1": "0", "b1": "0", "c1": "0"}),
    ]
    for lines, made in steps:
        ran = classroom("page", marked(folder, *lines))
        assert (ran.returncode, ran.stderr) == (0, "")
        assert {key: value for key, value in points(folder).items() if key in made} == made
    assert (
        f"The outcome in class/marks.csv: {outcome}"
        in (folder / "results/teacher.html").read_text()
    )


def test_a_mistake_is_marked_once(graded: Path) -> None:
    pytest.importorskip("sqlglot")
    folder = marked(graded)
    assert classroom("mistakes", folder).returncode in (0, 1)
    known = [row for row in rows(folder / "results/mistakes.csv") if row["mistake"]]
    task, mistake = known[0]["task"], known[0]["mistake"]
    who = known[0]["names"].split("; ")
    assert who
    marked(folder, f'{task},,,"{mistake}",,0.3,,,,', f"{task},,,another one,,0.4,,,,")
    ran = classroom("feedback", folder)
    assert ran.stderr == (
        "classroom: class/marks.csv, line 3 does not count: no answer to task"
        f" {task} has the mistake another one\n"
    )
    assert [key for key, value in points(folder).items() if value == "0.3"] == [
        f"{name}{task}" for name in sorted(who)
    ]


def test_a_line_that_no_longer_fits_does_not_count_and_is_named(graded: Path) -> None:
    folder = marked(
        graded,
        "2,b,0123456789,,,1,,,,",
        "1,zoe,,,,1,,,,",
        "1,,0123456789,,,1,,,,",
        "1,,,,differs 00000000,1,,,,",
        "3,d,0123456789,,,1,,,,",
    )
    before = points(folder)
    ran = classroom("grade", folder)
    assert ran.returncode == 0
    assert ran.stderr.splitlines() == [
        "classroom: class/marks.csv, line 2 does not count: b, task 2: the mark was for an earlier"
        " text",
        "classroom: class/marks.csv, line 3 does not count: there is no student zoe",
        "classroom: class/marks.csv, line 4 does not count: no answer to task 1 has the text"
        " 0123456789",
        "classroom: class/marks.csv, line 5 does not count: no answer to task 1 has the outcome"
        " differs 00000000",
        "classroom: class/marks.csv, line 6 does not count: d, task 3: the mark was for an earlier"
        " text",
    ]
    assert {key: value for key, value in points(folder).items() if key[0] != "d"} == before


def test_a_task_that_is_renamed_after_answers_were_placed_is_named(graded: Path) -> None:
    folder = marked(graded)
    (folder / "class/collected.csv").write_text(
        "task,answer,source,member,late,sha256,state,why\n"
        "1,a,all.zip,a/1.sql,,,placed,\n"
        "one,b,all.zip,b/one.sql,,,placed,\n"
        "7,a,all.zip,a/7.sql,,,placed,\n"
        "7,c,all.zip,c/7.sql,,,placed,\n"
        "9,c,all.zip,c/9.sql,,,empty,\n"
    )
    for command in ("grade", "page", "feedback"):
        ran = classroom(command, folder)
        assert ran.returncode == 0
        assert ran.stderr.splitlines() == [
            "classroom: there is no task one: 1 answer of class/collected.csv belongs to it, and has"
            " no mark",
            "classroom: there is no task 7: 2 answers of class/collected.csv belong to it, and have"
            " no mark",
        ]


def test_what_is_graded_by_hand_has_a_hand(graded: Path) -> None:
    """An answer that nothing reads, and a student whose answer came on paper."""
    folder = marked(graded)
    put(folder, "a1", "what is this?")
    ran = classroom("grade", folder)
    assert ran.returncode == 1 and "to be graded by hand:" in ran.stdout
    assert points(folder)["a1"] == "by hand"
    marked(folder, "1,a,,,,0.5,,,,", "2,d,,,,1,on paper,,,")
    ran = classroom("grade", folder)
    assert (ran.returncode, "by hand" in ran.stdout + ran.stderr) == (0, False)
    assert (points(folder)["a1"], points(folder)["d2"], points(folder)["d1"]) == ("0.5", "1", "")
    assert (grades(folder)["a1"]["decided_by"], grades(folder)["b1"]["decided_by"]) == (
        "marks.csv",
        "proved",
    )
    assert classroom("feedback", folder).returncode == 0
    assert "on paper" in (folder / "results/feedback/d.md").read_text()
    assert "1 of 5 points" in (folder / "results/feedback/d.html").read_text()


def test_points_that_are_changed_after_grading_are_the_same_everywhere(graded: Path) -> None:
    """The class's table, Moodle's, Canvas's and the pages are made of one gradebook."""
    right = (graded / "1/reference.sql").read_text()
    folder = marked(graded)
    put(folder, "a1", right)
    assert classroom("grade", folder).returncode == 0
    (folder / "exercise.toml").write_text("[task.1]\npoints = 5\n")
    marked(folder, "2,b,,,,0.333,,,,", "3,b,,,,0.333,,,,", "3,c,,,,-1.5,,bonus,,")
    ran = classroom("feedback", folder, "--for", "moodle", "--for", "canvas", "--assignment", "X")
    assert (ran.returncode, ran.stderr) == (0, "")
    wanted = {"a": "5", "b": "0.67", "c": "-1.5", "d": "0"}
    assert {row["id"]: row["points"] for row in rows(folder / "results/class.csv")} == wanted
    moodle, canvas = (
        rows(folder / "results/feedback" / name) for name in ("moodle.csv", "canvas.csv")
    )
    assert [row["Grade"] for row in moodle] == list(wanted.values())
    assert [row["X"] for row in canvas] == list(wanted.values())
    for who, what in wanted.items():
        page = html.unescape((folder / f"results/feedback/{who}.html").read_text())
        assert f": {what} of 9 points." in page
    tests = json.loads((folder / "results/results.json").read_text())["tests"]
    assert [(one["score"], one["max_score"]) for one in tests if one["name"] == "1/a"] == [(5, 5)]
    assert grades(folder)["a1"]["points"] == "5"


def test_a_comment_is_text_and_nothing_else(graded: Path) -> None:
    folder = marked(graded, f'1,a,,,,0.5,"{HOSTILE}\n\nsecond line",,ana,2026-11-20')
    ran = classroom("feedback", folder, "--for", "moodle")
    assert (ran.returncode, ran.stderr) == (0, "")
    page = (folder / "results/feedback/a.html").read_text()
    assert "<script>" not in page and html.escape(HOSTILE, False) in page
    assert "<p>second line</p>" in page
    text = (folder / "results/feedback/a.md").read_text()
    assert "<script>" not in text and "> second line" in text and "](java" not in text
    moodle = {row["Identifier"]: row for row in rows(folder / "results/feedback/moodle.csv")}
    assert "second line" in moodle["Participant 51"]["Feedback comments"]
    # Nobody else reads it, and nobody reads who wrote it.
    for other in ("b.html", "b.md", "c.html", "d.html"):
        assert "second line" not in (folder / "results/feedback" / other).read_text()
    assert "ana" not in page and "ana" not in text


def test_gradescope_has_the_points_of_the_hand(graded: Path) -> None:
    for path in graded.glob("*/answers/[bc].sql"):
        path.unlink()
    folder = graded
    assert classroom("grade", folder).returncode == 0
    (folder / "class").mkdir()
    (folder / "class/marks.csv").write_text(HEADER + "2,a,,,,0.75,nearly,,,\n")
    assert classroom("feedback", folder, "--for", "gradescope").returncode == 0
    made = json.loads((folder / "results/feedback/gradescope.json").read_text())
    second = made["tests"][1]
    assert (second["score"], second["max_score"], second["decided_by"]) == (0.75, 1, "marks.csv")
    assert "nearly" in second["output"] and made["score"] == 0.75


@pytest.fixture(scope="module")
def place(tmp_path_factory: pytest.TempPathFactory) -> Path:
    """An exercise of three tasks and no answers."""
    folder = tmp_path_factory.mktemp("random") / "exercise"
    for task in "123":
        (folder / task).mkdir(parents=True)
        (folder / task / "reference.sql").write_text("SELECT a FROM t")
    (folder / "schema.sql").write_text("CREATE TABLE t (a INTEGER)")
    (folder / "t.csv").write_text("a\n")
    (folder / "class").mkdir()
    return folder


MOST = strategies.decimals(0, 10, places=2)
SHARES = strategies.sampled_from([Grade.AGREES, Grade.DIFFERS, Grade.NOT_READ])


@hypothesis.settings(max_examples=60, deadline=None, database=None)  # type: ignore[misc]
@hypothesis.given(data=strategies.data())  # type: ignore[misc]
def test_the_tables_agree_with_a_second_computation(
    data: strategies.DataObject, place: Path
) -> None:
    most = [data.draw(MOST) for _ in "123"]
    (place / "exercise.toml").write_text(
        "".join(f"[task.{at}]\npoints = {float(one)}\n" for at, one in enumerate(most, 1))
    )
    people = [f"s{number}" for number in range(data.draw(strategies.integers(1, 5)))]
    given = exercise.load(place)
    graded, lines = [], []
    wanted: dict[tuple[str, int], Decimal | None] = {}
    for at, task in enumerate(given.tasks):
        texts = {}
        for who in people:
            if data.draw(strategies.booleans()):
                grade = data.draw(SHARES)
                # Each verdict is of one text.
                texts[who] = exercise.Answer(who, CleanText(str(grade).encode()))
                graded.append(Graded(task, texts[who], Decision(grade, PROVED)))
                share = {Grade.AGREES: Decimal(1), Grade.DIFFERS: Decimal(0)}.get(grade)
                wanted[who, at] = None if share is None else share * most[at]
        for text in sorted({one.text.whole for one in texts.values()}):
            if data.draw(strategies.booleans()):
                value = (most[at] * data.draw(strategies.decimals(0, 1, places=1))).quantize(
                    Decimal("0.001"), "ROUND_DOWN"
                )
                lines.append(f"{at + 1},,{hashlib.sha256(text).hexdigest()[:9]},,,{value},,,,")
                wanted |= {(who, at): value for who, one in texts.items() if one.text.whole == text}
        for who in texts:
            if data.draw(strategies.booleans()):
                value = data.draw(strategies.decimals(-5, 20, places=1))
                lines.append(f"{at + 1},{who},,,,{value},,bonus,,")
                wanted[who, at] = value
    (place / "class/marks.csv").write_text(HEADER + "".join(f"{line}\n" for line in lines))
    book = gradebook(given, graded, ClassList(tuple(Student(who, who) for who in people)))
    assert not book.notes
    tables = {name: content.decode() for name, content in mark_files.tables(book).items()}
    by_class = list(csv.reader(io.StringIO(tables["class.csv"])))[1:]
    for row, who in zip(by_class, people):
        own = [wanted[who, at] for at in range(3) if (who, at) in wanted]
        cells = [
            "" if (who, at) not in wanted else two(wanted[who, at]) or "by hand" for at in range(3)
        ]
        assert row == [
            who,
            who,
            *cells,
            two(sum((one for one in own if one is not None), Decimal(0))),
            str(own.count(None)),
        ]
    by_answer = {
        (row["answer"], int(row["task"]) - 1): row["points"]
        for row in csv.DictReader(io.StringIO(tables["grades.csv"]))
    }
    assert by_answer == {key: two(one) for key, one in wanted.items()}
    scores = {one["name"]: one["score"] for one in json.loads(tables["results.json"])["tests"]}
    assert scores == {
        f"{at + 1}/{who}": float(two(one)) for (who, at), one in wanted.items() if one is not None
    }


def two(points: Decimal | None) -> str:
    """With two digits at most, empty where there are none."""
    if points is None:
        return ""
    made = points.quantize(Decimal("0.01"), ROUND_HALF_UP).normalize()
    return f"{made + 0:f}"
