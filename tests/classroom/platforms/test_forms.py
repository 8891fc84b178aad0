"""What platforms call the files of an archive, beyond the usual names."""
from __future__ import annotations

import csv
import io
import json
import zipfile
from pathlib import Path
from subprocess import CompletedProcess

import made_archives
import pytest
from classroom.platforms import nbgrader, yaml_lists
from classroom.base.errors import Fault
from products import classroom

FILES = list[tuple[str, str | bytes]]


@pytest.fixture
def exercise(tmp_path: Path) -> Path:
    folder = tmp_path / "exercise"
    for task in ("1", "2", "3"):
        (folder / task).mkdir(parents=True)
        (folder / task / "reference.sql").write_text("SELECT a FROM t\n")
    (folder / "schema.sql").write_text("CREATE TABLE t (a INTEGER PRIMARY KEY);\n")
    (folder / "t.csv").write_text("a\n1\n")
    return folder


def class_list(exercise: Path, text: str) -> None:
    (exercise / "class").mkdir(exist_ok=True)
    (exercise / "class/students.csv").write_text(text, encoding="utf-8")


def collect(
    exercise: Path, tmp_path: Path, files: FILES, *words: str
) -> tuple[CompletedProcess[str], dict[str, str]]:
    """What `collect` of an archive of these files said, and the answers, as `1/anna`."""
    archive = made_archives.written(tmp_path / "x.zip", files)
    ran = classroom("collect", archive, exercise, *words)
    found = exercise.glob("*/answers/*.sql")
    return ran, {f"{path.parent.parent.name}/{path.stem}": path.read_text() for path in found}


def lines(exercise: Path) -> list[dict[str, str]]:
    with open(exercise / "class/collected.csv", encoding="utf-8", newline="") as file:
        return list(csv.DictReader(file))


@pytest.mark.parametrize("word", ["Participant", "Teilnehmerin", "Osallistuja", "参加者"])
def test_blind_marking_at_moodle(exercise: Path, tmp_path: Path, word: str) -> None:
    files: FILES = [
        (f"{word}_{number}_assignsubmission_file_/1.sql", f"SELECT {number}\n")
        for number in (4711, 4712)
    ]
    ran, found = collect(exercise, tmp_path, files)
    assert ran.returncode == 0, ran.stderr
    assert found == {f"1/{word} 4711": "SELECT 4711\n", f"1/{word} 4712": "SELECT 4712\n"}


def test_a_group_in_front_of_a_name_at_moodle(exercise: Path, tmp_path: Path) -> None:
    class_list(exercise, "id,name,moodle\nanna,Anna Alvarez,4711\n")
    files: FILES = [("Group A-Anna Alvarez_4711_assignsubmission_file_/1.sql", "SELECT 1\n")]
    assert collect(exercise, tmp_path, files)[1] == {"1/anna": "SELECT 1\n"}


def test_kinds_of_canvas(exercise: Path, tmp_path: Path) -> None:
    """A text, a link, one that is late, one whose assignment is anonymous, names with signs."""
    page = "<p>-- task 1</p><p>SELECT 2</p>"
    files: FILES = [
        ("alvarezanna_123_45678_1.sql", "SELECT 1\n"),
        ("celikcarla_125_text.html", page),
        ("o'neill-brownben_LATE_126_text.html", page),
        ("farrowdan_127_link.html", "<a href='https://example.org'>x</a>"),
        ("anon_a1B2c_45680_1.sql", "SELECT 3\n"),
        # The student's own name for a file is no text of the platform's.
        ("eve_128_45690_99_text.html", "SELECT 4\n"),
    ]
    ran, found = collect(exercise, tmp_path, files)
    assert found == {
        "1/alvarezanna": "SELECT 1\n",
        "1/celikcarla": "SELECT 2\n",
        "1/o'neill-brownben": "SELECT 2\n",
        "1/anon a1B2c": "SELECT 3\n",
    }
    assert ran.returncode == 1 and "an address was handed in" in ran.stderr
    assert {row["answer"] for row in lines(exercise) if row["late"]} == {"o'neill-brownben"}
    assert {row["answer"]: row["state"] for row in lines(exercise) if row["state"] != "placed"} == {
        "farrowdan": "refused",
        "eve": "unplaced",
    }


METADATA = """---
submission_11:
  :submitters:
  - :name: Anna Alvarez
    :sid: '4711'
    :email: anna@example.org
  - :name: Ben Brown
    :sid: ''
    :email: ben@example.org
  :created_at: 2026-11-20 22:59:58.123456000 Z
  :score: 0.0
submission_12: &one
  :submitters:
  - :name: Carla Çelik
    :sid:
    :email: carla@example.org
  :created_at: !ruby/object:Time 2026-11-21 00:00:01 +0100
  :history: []
"""


def test_an_export_of_gradescope(exercise: Path, tmp_path: Path) -> None:
    """Both of a group hand in, and are known by number or e-mail."""
    class_list(
        exercise,
        "id,name,email\n4711,Anna Alvarez,anna@example.org\nben,Ben Brown,BEN@example.org\n"
        "carla,Carla Çelik,carla@example.org\n",
    )
    files: FILES = [
        ("assignment_7_export/submission_11/1.sql", "SELECT 1\n"),
        ("assignment_7_export/submission_11/notes.sql", "SELECT 9\n"),
        ("assignment_7_export/submission_12/2.sql", "SELECT 2\n"),
        ("assignment_7_export/submission_13/2.sql", "SELECT 3\n"),
        ("assignment_7_export/submission_metadata.yml", METADATA),
    ]
    ran, found = collect(exercise, tmp_path, files)
    assert found == {
        "1/4711": "SELECT 1\n",
        "1/ben": "SELECT 1\n",
        "2/carla": "SELECT 2\n",
    }
    assert ran.returncode == 1
    assert "submission_13/2.sql: its name has not the form of the others" in ran.stderr
    times = {row["answer"]: row["late"] for row in lines(exercise) if row["state"] == "placed"}
    assert times == {
        "4711": "2026-11-20T22:59:58+00:00",
        "ben": "2026-11-20T22:59:58+00:00",
        "carla": "2026-11-21T00:00:01+01:00",
    }
    # What both handed in and is no answer is told for each.
    assert [row["answer"] for row in lines(exercise) if "notes" in row["member"]] == ["4711", "ben"]


def test_an_export_of_gradescope_without_its_list(exercise: Path, tmp_path: Path) -> None:
    ran, found = collect(exercise, tmp_path, [("submission_11/1.sql", "SELECT 1\n")])
    assert ran.returncode == 1 and "no submission_metadata.yml" in ran.stderr and not found


@pytest.mark.parametrize(
    ("text", "why"),
    [
        ("[" * 5_000, "deep"),
        ("a: [1", "no YAML"),
        ("a: !!python/object/apply:os.system ['touch hacked']", ""),
        ("a: &a [x]\nb: {<<: *a}", ""),
        (b"\xff\xfe\x00", "no YAML"),
    ],
)
def test_hostile_yaml(text: str | bytes, why: str) -> None:
    content = text if isinstance(text, bytes) else text.encode()
    if why:
        with pytest.raises(Fault, match=why):
            yaml_lists.read(content)
    else:
        assert isinstance(yaml_lists.read(content), dict) and not Path("hacked").exists()


def test_aliases_multiply_nothing() -> None:
    """Ten lists of ten of the one before would be 10^30 texts."""
    text = "a0: &a0 x\n" + "".join(
        f"a{at}: &a{at} [{', '.join(10 * [f'*a{at - 1}'])}]\n" for at in range(1, 31)
    )
    made = yaml_lists.mapping(yaml_lists.read(text.encode()))
    assert len(made) == 31 and isinstance(made["a30"], list) and len(made["a30"]) == 10


def test_assignments_of_nbgrader(exercise: Path, tmp_path: Path) -> None:
    files: FILES = [
        ("submitted/anna/ps1/1.sql", "SELECT 1\n"),
        ("submitted/anna/ps1/timestamp.txt", "2026-11-20 22:59:58.123 Europe/Berlin\n"),
        ("submitted/anna/ps2/1.sql", "SELECT 2\n"),
    ]
    ran, found = collect(exercise, tmp_path, files)
    assert ran.returncode == 1 and "--assignment NAME" in ran.stderr and "ps1, ps2" in ran.stderr
    assert ran.stderr.count("\n") == 1 and not found
    ran, found = collect(exercise, tmp_path, files, "--assignment", "ps1")
    assert (ran.returncode, found) == (0, {"1/anna": "SELECT 1\n"})
    assert [row["late"] for row in lines(exercise)] == ["2026-11-20T22:59:58+01:00"]
    ran, _ = collect(exercise, tmp_path, files, "--assignment", "ps3")
    assert ran.returncode == 1 and "no assignment ps3, but ps1, ps2" in ran.stderr
    # A single one is told.
    assert "assignment: ps2\n" in collect(exercise, tmp_path, files[2:])[0].stdout


@pytest.mark.parametrize(
    ("text", "moment"),
    [
        ("2015-02-02 15:58:23.948203 America/Los_Angeles", "2015-02-02T15:58:23-08:00"),
        ("2015-02-02 15:58:23", "2015-02-02T15:58:23+00:00"),
        ("2015-02-02T15:58:23Z", "2015-02-02T15:58:23+00:00"),
        ("2015-02-02 15:58:23 ../../etc/passwd", ""),
        ("2015-02-02 15:58:23 Nowhere/City", ""),
        ("2015-02-30 15:58:23 UTC", ""),
        ("yesterday", ""),
    ],
)
def test_moments_of_nbgrader(text: str, moment: str) -> None:
    assert nbgrader.moment(text) == moment


def notebook(*cells: tuple[str, dict[str, object]], kind: str = "code") -> str:
    return json.dumps(
        {
            "cells": [
                {"cell_type": kind, "metadata": more, "source": text.splitlines(keepends=True)}
                for text, more in cells
            ],
            "nbformat": 4,
        }
    )


def grade_id(name: str, is_solution: bool = True) -> dict[str, object]:
    return {"nbgrader": {"grade_id": name, "solution": is_solution, "grade": not is_solution}}


def test_a_notebook(exercise: Path, tmp_path: Path) -> None:
    """Its cells name their tasks by a tag, a comment, or nbgrader's id; nothing in it is run."""
    text = notebook(
        ("import os; os.system('touch hacked')\n", {}),
        ("%%sql sqlite:///x.db\nSELECT 1\nFROM t\n", {"tags": ["x", "task-1"]}),
        ("%%sql\n-- task 2\nSELECT 2\n", {}),
        ('answer_3 = """SELECT 3"""\n', grade_id("answer-3")),
        ("check(answer_3)\n", grade_id("test-3", False)),
        ("raise NotImplementedError()\n", grade_id("answer-2")),
    )
    ran, found = collect(exercise, tmp_path, [("anna/homework.ipynb", text)])
    assert ran.returncode == 0, ran.stderr
    assert found == {
        "1/anna": "SELECT 1\nFROM t\n",
        "2/anna": "-- task 2\nSELECT 2\n",
        "3/anna": "SELECT 3\n",
    }
    assert not Path("hacked").exists()


@pytest.mark.parametrize(
    ("text", "why"),
    [
        ("no JSON", "it is not JSON"),
        ("[" * 100_000, "it is not JSON"),
        ('{"worksheets": []}', "has no cells"),
        (notebook(("print(1)\n", {})), "no cell names a task"),
        (notebook(("%%sql\nSELECT 1\n", {}), ("%%sql\nSELECT 2\n", {})), "names no task"),
        (
            notebook(("%%sql\nSELECT 1\n", {"tags": ["task-1"]}), ("1", {"tags": ["task-1"]})),
            "two cells name the task 1",
        ),
    ],
)
def test_a_notebook_that_says_nothing(exercise: Path, tmp_path: Path, text: str, why: str) -> None:
    ran, found = collect(exercise, tmp_path, [("anna/homework.ipynb", text)])
    assert ran.returncode == 1 and why in ran.stderr and not found
    assert "Traceback" not in ran.stderr
    assert [(row["answer"], row["state"]) for row in lines(exercise)] == [("anna", "unplaced")]


def test_a_notebook_whose_name_says_the_task(exercise: Path, tmp_path: Path) -> None:
    text = notebook(("%%sql\nSELECT 1\n", {}))
    assert collect(exercise, tmp_path, [("anna/task2.ipynb", text)])[1] == {"2/anna": "SELECT 1\n"}


def packed(files: FILES) -> bytes:
    content = io.BytesIO()
    with zipfile.ZipFile(content, "w", zipfile.ZIP_DEFLATED) as archive:
        for name, text in files:
            archive.writestr(name, text)
    return content.getvalue()


def test_a_zip_file_that_was_handed_in(exercise: Path, tmp_path: Path) -> None:
    """Its files are its owner's, whatever they are called."""
    inner = packed(
        [
            ("ben/1.sql", "SELECT 1\n"),
            ("Ben B_12_assignsubmission_file_/2.sql", "SELECT 2\n"),
            ("../../3.sql", "SELECT 3\n"),
            ("more.zip", packed([("3.sql", "SELECT 4\n")])),
            ("__MACOSX/._1.sql", "x"),
        ]
    )
    files: FILES = [
        ("Anna A_11_assignsubmission_file_/all.zip", inner),
        ("Ben B_12_assignsubmission_file_/1.sql", "SELECT 5\n"),
    ]
    ran, found = collect(exercise, tmp_path, files)
    assert found == {"1/Anna A": "SELECT 1\n", "2/Anna A": "SELECT 2\n", "1/Ben B": "SELECT 5\n"}
    assert ran.returncode == 1
    assert "all.zip/../../3.sql: its name leads out of the archive" in ran.stderr
    assert "all.zip/more.zip: it is" in ran.stderr
    refused = [row for row in lines(exercise) if row["state"] == "refused"]
    assert {row["answer"] for row in refused} == {"Anna A"} and len(refused) == 2


@pytest.mark.parametrize(
    ("inner", "why"),
    [
        (packed([(f"{number}.sql", "") for number in range(1_001)]), "more than 1,000 files"),
        (packed([("1.sql", b" " * 2_000_000)]), "more than 1,000,000 bytes"),
        (b"PK\x03\x04 of nothing", "a broken zip file"),
        (b"PK\x03\x04 of Word", "another packed file"),
    ],
    ids=["many", "large", "broken", "word"],
)
def test_a_hostile_zip_file_in_a_hand_in(
    exercise: Path, tmp_path: Path, inner: bytes, why: str
) -> None:
    """It is refused by name, and the others are placed."""
    name = "all.zip" if why != "another packed file" else "all.docx"
    files: FILES = [(f"anna/{name}", inner), ("ben/1.sql", "SELECT 1\n")]
    ran, found = collect(exercise, tmp_path, files)
    assert ran.returncode == 1 and why in ran.stderr and found == {"1/ben": "SELECT 1\n"}


def test_a_pattern_of_names(exercise: Path, tmp_path: Path) -> None:
    files: FILES = [
        ("hw/[anna] first try/1.sql", "SELECT 1\n"),
        ("hw/[ben] x/sub/2.sql", "SELECT 2\n"),
        ("hw/readme.txt", "no student"),
    ]
    pattern = r"hw/\[(?P<student>\w+)\][^/]*/(?P<file>.+)"
    ran, found = collect(exercise, tmp_path, files, "--form-pattern", pattern)
    assert found == {"1/anna": "SELECT 1\n", "2/ben": "SELECT 2\n"}
    assert ran.returncode == 1 and "hw/readme.txt" in ran.stderr
    for wrong in ("(", r"(?P<student>.*)"):
        assert classroom("collect", "x", exercise, "--form-pattern", wrong).returncode == 2


def test_a_name_at_the_top_says_a_listed_student_alone(exercise: Path, tmp_path: Path) -> None:
    class_list(exercise, "id,name,login\nanna,Anna A,\nanna-lena,Anna-Lena B,\ns2,Carl C,cc7\n")
    files: FILES = [
        ("anna-1.sql", "SELECT 1\n"),
        ("Anna-Lena_task2.sql", "SELECT 2\n"),
        ("1_cc7.sql", "SELECT 3\n"),
        ("s2-3.sql", "SELECT 4\n"),
        ("anna cc7 1.sql", "SELECT 5\n"),
        ("dora-1.sql", "SELECT 6\n"),
        ("1.sql", "SELECT 7\n"),
    ]
    ran, found = collect(exercise, tmp_path, files)
    assert found == {
        "1/anna": "SELECT 1\n",
        "2/anna-lena": "SELECT 2\n",
        "1/s2": "SELECT 3\n",
        "3/s2": "SELECT 4\n",
    }
    for name in ("anna cc7 1.sql", "dora-1.sql", "1.sql"):
        assert f"not placed: {name}: " in ran.stderr


def test_names_alone_without_a_list(exercise: Path, tmp_path: Path) -> None:
    """Only where the teacher says so."""
    files: FILES = [
        ("anna-1.sql", "SELECT 1\n"),
        ("in/task2_Ben Brown.sql", "SELECT 2\n"),
        ("1.sql", "SELECT 3\n"),
    ]
    assert collect(exercise, tmp_path, files)[1] == {"2/in": "SELECT 2\n"}
    (exercise / "2/answers/in.sql").unlink()
    ran, found = collect(exercise, tmp_path, files, "--by-name")
    assert found == {"1/anna": "SELECT 1\n", "2/Ben Brown": "SELECT 2\n"}
    assert ran.returncode == 1 and "not placed: 1.sql" in ran.stderr


@pytest.mark.parametrize(
    ("content", "why"),
    [
        (b"7z\xbc\xaf\x27\x1c rest", "a 7z archive: unpack it"),
        (b"Rar!\x1a\x07\x00", "a RAR archive: unpack it"),
        (b"\x1f\x8b\x08 rest", "packed by gzip: unpack it"),
        (packed([("anna/1.sql", "SELECT 1\n")])[:40], "its end is missing"),
    ],
    ids=["7z", "rar", "gzip", "cut"],
)
def test_other_archives_are_refused_with_what_to_do(
    exercise: Path, tmp_path: Path, content: bytes, why: str
) -> None:
    (tmp_path / "x").write_bytes(content)
    ran = classroom("collect", tmp_path / "x", exercise)
    assert ran.returncode == 1 and why in ran.stderr and ran.stderr.count("\n") == 1


def test_a_name_of_64_kilobytes(exercise: Path, tmp_path: Path) -> None:
    files: FILES = [("a" * 65_000 + "/1.sql", "SELECT 1\n"), ("ben/1.sql", "SELECT 2\n")]
    ran, found = collect(exercise, tmp_path, files)
    assert found == {"1/ben": "SELECT 2\n"} and "more than 4,096 characters" in ran.stderr


def test_a_file_that_begins_with_a_dot_is_told(exercise: Path, tmp_path: Path) -> None:
    """What a computer adds by itself is not."""
    files: FILES = [
        ("anna/.1.sql", "SELECT 1\n"),
        ("anna/.DS_Store", "x"),
        ("anna/._2.sql", "x"),
        ("anna/.ipynb_checkpoints/3.sql", "SELECT 3\n"),
    ]
    ran, found = collect(exercise, tmp_path, files)
    assert [row["member"] for row in lines(exercise)] == ["anna/.1.sql"]
    assert found == {"1/anna": "SELECT 1\n"}, ran.stderr


def test_a_refused_file_is_its_owners(ratest: Path, exercise: Path, tmp_path: Path) -> None:
    """Who handed in what is too large, or of another kind, has no 0."""
    files: FILES = [
        ("anna/1.sql", b"-" * 2_000_000),
        ("ben/1.sql", "SELECT a FROM t\n"),
        ("carl/1.sql", b"%PDF-1.7"),
    ]
    ran, _ = collect(exercise, tmp_path, files)
    assert ran.stdout.endswith(", 2 refused\n")
    states = {row["answer"]: row["state"] for row in lines(exercise)}
    assert states == {"anna": "refused", "ben": "placed", "carl": "refused"}
    assert classroom("grade", exercise).returncode in (0, 1)
    with open(exercise / "results/class.csv", encoding="utf-8", newline="") as file:
        rows = {row["id"]: row["open"] for row in csv.DictReader(file)}
    assert rows == {"anna": "3", "ben": "0", "carl": "3"}
