"""`classroom collect`: answers of archives of each form, to the files that they belong in."""
from __future__ import annotations

import csv
import os
import shutil
import subprocess
import unicodedata
from pathlib import Path

import pytest

import made_archives
from made_archives import PEOPLE, class_list
from classroom.exercise.collected import read_collected
from products import classroom

TASKS = ("1", "2", "aggregates")
# Each text is one alone, so that an answer at another's place is seen.
ANSWERS = {
    one.id: {task: f"SELECT '{one.id} {task}' AS a -- ä\n  FROM drinker\n" for task in TASKS}
    for one in PEOPLE
}


@pytest.fixture
def exercise(tmp_path: Path) -> Path:
    folder = tmp_path / "exercise"
    for task in TASKS:
        (folder / task).mkdir(parents=True)
        (folder / task / "reference.sql").write_text("SELECT name FROM drinker\n")
    (folder / "schema.sql").write_text("CREATE TABLE drinker (name TEXT);\n")
    (folder / "drinker.csv").write_text("name\nAnn\n")
    return folder


@pytest.fixture
def listed(exercise: Path) -> Path:
    (exercise / "class").mkdir()
    (exercise / "class/students.csv").write_text(class_list(), encoding="utf-8")
    return exercise


def collect(source: Path, exercise: Path, *words: str | Path) -> subprocess.CompletedProcess[str]:
    return classroom("collect", source, exercise, *words)


def found(exercise: Path) -> dict[str, dict[str, str]]:
    """The answers in the exercise, by who and task."""
    made: dict[str, dict[str, str]] = {}
    for path in exercise.glob("*/answers/*"):
        assert path.suffix == ".sql" and path.is_file() and not path.is_symlink()
        made.setdefault(path.stem, {})[path.parts[-3]] = path.read_text(encoding="utf-8")
    return made


def test_moodle_with_a_class_list(listed: Path, tmp_path: Path) -> None:
    ran = collect(made_archives.moodle(tmp_path / "m.zip", ANSWERS), listed)
    assert (ran.returncode, ran.stderr) == (0, "")
    assert ran.stdout == "4 students, 12 answers: 12 new, 0 replaced, 0 as they were, 0 kept\n"
    assert found(listed) == ANSWERS


def test_one_student_and_one_answer(exercise: Path, tmp_path: Path) -> None:
    who = next(iter(ANSWERS))
    task, text = next(iter(ANSWERS[who].items()))
    ran = collect(made_archives.moodle(tmp_path / "m.zip", {who: {task: text}}), exercise)
    assert (
        ran.stdout == "1 student, 1 answer: 1 new, 0 replaced, 0 as they were, 0 kept\n"
    ), ran.stderr


def test_moodle_without_one(exercise: Path, tmp_path: Path) -> None:
    """The full name is the id."""
    ran = collect(made_archives.moodle(tmp_path / "m.zip", ANSWERS), exercise)
    assert (ran.returncode, ran.stderr) == (0, "")
    assert found(exercise) == {one.name: ANSWERS[one.id] for one in PEOPLE}


def test_two_of_one_name_are_told_apart_by_the_list_alone(exercise: Path, tmp_path: Path) -> None:
    twins = [
        made_archives.Person("max1", "Max Berg", "1", "1"),
        made_archives.Person("max2", "Max Berg", "2", "2"),
    ]
    archive = made_archives.moodle(
        tmp_path / "m.zip", {"max1": {"1": "SELECT 1\n"}, "max2": {"1": "SELECT 2\n"}}, twins
    )
    ran = collect(archive, exercise)
    assert (
        ran.returncode == 1
        and ran.stderr.count("several have the name Max Berg") == 2
        and found(exercise) == {}
    )
    (exercise / "class").mkdir(exist_ok=True)
    (exercise / "class/students.csv").write_text(class_list(twins))
    assert collect(archive, exercise).returncode == 0
    assert found(exercise) == {"max1": {"1": "SELECT 1\n"}, "max2": {"1": "SELECT 2\n"}}


def test_what_was_typed_at_moodle(listed: Path, tmp_path: Path) -> None:
    """HTML becomes text, and is split at the comments."""
    answers = {
        "anna": {"1": "SELECT a\nFROM t\nWHERE a < 3 AND b  = 'x & y'\n"},
        "ben": {"2": "SELECT 2\n", "aggregates": "SELECT 3\n"},
    }
    ran = collect(made_archives.online(tmp_path / "m.zip", answers, PEOPLE[:2]), listed)
    assert (ran.returncode, ran.stderr) == (0, "")
    assert {
        who: {task: text.replace("\n\n", "\n") for task, text in texts.items()}
        for who, texts in found(listed).items()
    } == answers


def test_canvas_late_and_handed_in_again(listed: Path, tmp_path: Path) -> None:
    """Of two submissions the one with the greater number counts, under the name without Canvas's
    mark."""
    ran = collect(
        made_archives.canvas(tmp_path / "c.zip", ANSWERS, late=["ben"], again=["li", "ben"]), listed
    )
    assert (ran.returncode, ran.stderr) == (0, "")
    assert found(listed) == ANSWERS
    with open(listed / "class/collected.csv", encoding="utf-8", newline="") as file:
        lines = list(csv.DictReader(file))
    rows = [row for row in lines if row["state"] == "placed"]
    assert len(rows) == 12 and {row["answer"] for row in rows if row["late"]} == {"ben"}
    # The earlier ones are in the list, too.
    others = [row for row in lines if row["state"] != "placed"]
    assert {row["answer"] for row in others} == {"li", "ben"}
    assert {row["state"] for row in others} <= {"older", "same"}
    assert {row["source"] for row in rows} == {"c.zip"}
    assert {row["member"] for row in rows if row["answer"] == "li"} == {
        f"nali_104_453{at}1_{task}-1.sql" for at, task in enumerate(TASKS)
    }


def test_nbgrader_and_a_folder_a_student(exercise: Path, tmp_path: Path) -> None:
    ran = collect(made_archives.nbgrader(tmp_path / "course", ANSWERS), exercise)
    assert (ran.returncode, ran.stderr) == (0, "")
    assert found(exercise) == ANSWERS
    for folder in exercise.glob("*/answers"):
        shutil.rmtree(folder)
    ran = collect(made_archives.folders(tmp_path / "f.zip", ANSWERS), exercise)
    assert (ran.returncode, ran.stderr) == (0, "")
    assert {
        who: {task: text.strip() for task, text in texts.items()}
        for who, texts in found(exercise).items()
    } == {
        who: {task: text.strip() for task, text in texts.items()} for who, texts in ANSWERS.items()
    }


def test_task_and_pattern(exercise: Path, tmp_path: Path) -> None:
    archive = made_archives.written(tmp_path / "t.zip", [("anna/whatever.sql", "SELECT 1\n")])
    assert collect(archive, exercise, "--task", "2").returncode == 0
    assert found(exercise) == {"anna": {"2": "SELECT 1\n"}}
    archive = made_archives.written(
        tmp_path / "p.zip",
        [
            (
                "ben/all.sql",
                "-- my answers\n# Aufgabe 1:\nSELECT 1\n\n# Aufgabe aggregates\nSELECT 2\n",
            )
        ],
    )
    assert collect(archive, exercise, "--task-pattern", r"^# Aufgabe (\w+).*$").returncode == 0
    assert found(exercise)["ben"] == {"1": "SELECT 1\n", "aggregates": "SELECT 2\n"}
    ran = collect(archive, exercise, "--task", "9")
    assert (ran.returncode, ran.stderr) == (1, "classroom: there is no task 9\n")
    assert collect(archive, exercise, "--task-pattern", "no group").returncode == 2


@pytest.mark.parametrize(
    ("text", "why", "placed"),
    [
        ("SELECT 1\n", "no comment", {}),
        ("-- task 9\nSELECT 1\n", "the task 9, which is none", {}),
        ("-- task 1\nSELECT 1\n-- task 1\nSELECT 2\n", "two comments name the task 1", {}),
        # What is clear is placed.
        ("SELECT 0;\n-- task 1\nSELECT 1\n", "stands before", {"anna": {"1": "SELECT 1\n"}}),
        ("-- task 1\n-- nothing\n", "no query is in it", {}),
        (" \n", "it is empty", {}),
    ],
)
def test_what_can_not_be_placed_is_named(
    exercise: Path, tmp_path: Path, text: str, why: str, placed: dict[str, dict[str, str]]
) -> None:
    archive = made_archives.written(
        tmp_path / "x.zip", [("anna/all.sql", text), ("ben/1.sql", "SELECT 2\n")]
    )
    ran = collect(archive, exercise)
    assert ran.returncode == 1 and "anna/all.sql" in ran.stderr and why in ran.stderr
    assert found(exercise) == {"ben": {"1": "SELECT 2\n"}, **placed}


def test_a_later_archive_replaces_what_nobody_edited(exercise: Path, tmp_path: Path) -> None:
    first = made_archives.written(
        tmp_path / "1.zip", [("anna/1.sql", "SELECT 1\n"), ("ben/1.sql", "SELECT 2\n")]
    )
    second = made_archives.written(
        tmp_path / "2.zip", [("anna/1.sql", "SELECT 3\n"), ("ben/1.sql", "SELECT 2\n")]
    )
    assert collect(first, exercise).returncode == 0
    ran = collect(second, exercise, "--dry-run")
    assert ran.returncode == 0 and ", 1 replaced, 1 as they were, 0 kept" in ran.stdout
    assert found(exercise)["anna"] == {"1": "SELECT 1\n"}
    ran = collect(second, exercise)
    assert (ran.returncode, ran.stderr) == (0, "")
    assert ran.stdout == "2 students, 2 answers: 0 new, 1 replaced, 1 as they were, 0 kept\n"
    assert found(exercise)["anna"] == {"1": "SELECT 3\n"}
    older = list((exercise / "class/older/1").iterdir())
    assert [path.read_text() for path in older] == ["SELECT 1\n"]
    assert older[0].name.startswith("anna.")
    listed = (exercise / "class/collected.csv").read_text().splitlines()
    assert [line.split(",")[:3] for line in listed[1:]] == [
        ["1", "anna", "2.zip"],
        ["1", "ben", "2.zip"],
    ]


def test_what_was_edited_is_written_over_by_force_alone(exercise: Path, tmp_path: Path) -> None:
    archive = made_archives.written(
        tmp_path / "1.zip", [("anna/1.sql", "SELECT 1\n"), ("ben/1.sql", "SELECT 2\n")]
    )
    assert collect(archive, exercise).returncode == 0
    (exercise / "1/answers/anna.sql").write_text("SELECT 1 -- edited\n")
    ran = collect(archive, exercise)
    assert ran.returncode == 1 and "the answer of anna to task 1 was edited here" in ran.stderr
    assert ran.stdout == "2 students, 2 answers: 0 new, 0 replaced, 1 as they were, 1 kept\n"
    assert found(exercise)["anna"] == {"1": "SELECT 1 -- edited\n"}
    assert collect(archive, exercise, "--force").returncode == 0
    assert found(exercise)["anna"] == {"1": "SELECT 1\n"}
    older = list((exercise / "class/older/1").iterdir())
    assert [path.read_text() for path in older] == ["SELECT 1 -- edited\n"]


def test_what_was_put_there_by_hand_is_kept(exercise: Path, tmp_path: Path) -> None:
    (exercise / "1/answers").mkdir(parents=True, exist_ok=True)
    (exercise / "1/answers/anna.sql").write_text("SELECT 9\n")
    archive = made_archives.written(tmp_path / "1.zip", [("anna/1.sql", "SELECT 1\n")])
    assert collect(archive, exercise).returncode == 1
    assert found(exercise)["anna"] == {"1": "SELECT 9\n"}


def test_what_is_gone_from_the_archive_is_named(exercise: Path, tmp_path: Path) -> None:
    files = [("anna/1.sql", "SELECT 1\n"), ("ben/1.sql", "SELECT 2\n")]
    assert collect(made_archives.written(tmp_path / "1.zip", files), exercise).returncode == 0
    ran = collect(made_archives.written(tmp_path / "1.zip", files[:1]), exercise)
    assert "no longer in the archive: ben/1.sql" in ran.stderr
    assert found(exercise)["ben"] == {"1": "SELECT 2\n"}


def test_a_hostile_archive(exercise: Path, tmp_path: Path) -> None:
    """Nothing leaves the folder, no link is followed, and what is left out is named; the rest is
    placed."""
    before = sorted(path for path in tmp_path.rglob("*"))
    archive = made_archives.hostile(tmp_path / "h.zip")
    ran = collect(archive, exercise)
    assert ran.returncode == 1
    for name, why in (
        ("../../outside/1.sql", "leads out"),
        ("/etc/cron.d/1.sql", "leads out"),
        ("ben/../../1.sql", "leads out"),
        ("C:/ben/1.sql", "leads out"),
        ("li/1.sql", "more than 1,000,000 bytes"),
        ("anna/1.sql", "a link"),
        ("anna/2.sql", "no plain file"),
        ("anna/inner.zip", "no text of a query"),
    ):
        assert any(
            line.startswith(f"classroom: not placed: {name}: ") and why in line
            for line in ran.stderr.splitlines()
        ), name
    assert "\x1b" not in ran.stderr and found(exercise) == {"jörg": {"1": "SELECT 4\n"}}
    made = sorted(path for path in tmp_path.rglob("*") if path not in before and path != archive)
    assert made == sorted(
        [
            exercise / "1/answers",
            exercise / "1/answers/jörg.sql",
            exercise / "class",
            exercise / "class/collected.csv",
        ]
    )


@pytest.mark.parametrize(
    ("files", "megabytes", "why"),
    [(2_000, 1_200, "1,000,000,000 bytes"), (50_001, 1, "50,000 files")],
)
def test_a_bomb(exercise: Path, tmp_path: Path, files: int, megabytes: int, why: str) -> None:
    ran = collect(made_archives.bomb(tmp_path / "b.zip", files, megabytes), exercise)
    assert ran.returncode == 1 and why in ran.stderr and ran.stderr.count("\n") == 1
    assert not list(exercise.glob("*/answers")) and not (exercise / "class").exists()


def test_a_lie_about_a_size(exercise: Path, tmp_path: Path) -> None:
    """What a member unpacks to is bounded, whatever the archive says of it."""
    archive = made_archives.written(tmp_path / "l.zip", [("li/1.sql", b"-" * 20_000_000)])
    content = archive.read_bytes()
    said = (20_000_000).to_bytes(4, "little")
    assert content.count(said) == 2
    archive.write_bytes(content.replace(said, (100).to_bytes(4, "little")))
    ran = collect(archive, exercise)
    assert ran.returncode == 1 and "not placed: li/1.sql" in ran.stderr and found(exercise) == {}


def test_links_in_a_folder_are_not_followed(exercise: Path, tmp_path: Path) -> None:
    source = tmp_path / "source"
    (source / "anna").mkdir(parents=True)
    (source / "anna/1.sql").symlink_to("/etc/passwd")
    (source / "ben").symlink_to("/etc")
    os.mkfifo(source / "anna/2.sql")
    ran = collect(source, exercise)
    assert (
        ran.returncode == 1
        and ran.stderr.count("a link, which is not followed") == 2
        and "no plain file" in ran.stderr
    )
    assert found(exercise) == {}


def test_no_answer_goes_through_a_link_in_the_exercise(exercise: Path, tmp_path: Path) -> None:
    (tmp_path / "elsewhere").mkdir()
    (exercise / "1/answers").symlink_to(tmp_path / "elsewhere")
    ran = collect(
        made_archives.written(tmp_path / "a.zip", [("anna/1.sql", "SELECT 1\n")]), exercise
    )
    assert ran.returncode == 1 and not list((tmp_path / "elsewhere").iterdir())


@pytest.mark.parametrize(
    ("text", "why"),
    [
        ("name\nAnna\n", "id once among them"),
        ("id,name\na/b,Anna\n", "line 2: the id a/b"),
        ("id,name\n.a,Anna\n", "begins with a dot"),
        ("id,name\nanna,Anna\nANNA,Anna 2\n", "line 3: id anna stands in line 2 too"),
        ("id,name,moodle\na,A,1\nb,B,1\n", "line 3: moodle 1"),
        ("id,name\na\n", "line 2: no name"),
        ("id,name\na,b,c\n", "more cells than columns"),
    ],
)
def test_a_class_list_that_is_wrong(exercise: Path, tmp_path: Path, text: str, why: str) -> None:
    (tmp_path / "list.csv").write_text(text)
    ran = collect(
        made_archives.folders(tmp_path / "f.zip", {}), exercise, "--students", tmp_path / "list.csv"
    )
    assert ran.returncode == 1 and why in ran.stderr and ran.stderr.count("\n") == 1


def test_a_class_list_of_a_spreadsheet(exercise: Path, tmp_path: Path) -> None:
    """With a mark of UTF-8, semicolons, other columns and empty lines."""
    (exercise / "class").mkdir()
    (exercise / "class/students.csv").write_text(
        "\ufeffName;ID;Group;Moodle\nAnna Maria Schäfer;anna;A;12345\n;;;\n", encoding="utf-8"
    )
    ran = collect(made_archives.moodle(tmp_path / "m.zip", ANSWERS, PEOPLE[:2]), exercise)
    assert ran.returncode == 1 and "not in the class list: Ben O'Neill" in ran.stderr
    assert set(found(exercise)) == {"anna", "Ben O'Neill"}


def test_what_is_no_archive(exercise: Path, tmp_path: Path) -> None:
    (tmp_path / "x.zip").write_bytes(b"no zip")
    for source, why in (
        (tmp_path / "x.zip", "is no zip file"),
        (tmp_path / "nothing", "there is no file or folder"),
    ):
        ran = collect(source, exercise)
        assert ran.returncode == 1 and why in ran.stderr and ran.stderr.count("\n") == 1


def test_cells_that_a_spreadsheet_runs(exercise: Path, tmp_path: Path) -> None:
    """Names are the students' own at some platforms: none begins a formula, and each is read back
    as it was."""
    names = ("=HYPERLINK(1)", "'=1", "''+2", "@a", "'quoted", "Ann")
    for name in names:
        (tmp_path / "from" / name).mkdir(parents=True)
        (tmp_path / "from" / name / "1.sql").write_text(f"SELECT {len(name)}\n")
    assert collect(tmp_path / "from", exercise).returncode == 0
    with open(exercise / "class/collected.csv", encoding="utf-8", newline="") as file:
        cells = [cell for line in csv.reader(file) for cell in line]
    assert (
        not [cell for cell in cells if cell.startswith(("=", "+", "-", "@"))]
        and "'=HYPERLINK(1)/1.sql" in cells
    )
    assert {(line.answer, line.member) for line in read_collected(exercise).values()} == {
        (name, f"{name}/1.sql") for name in names
    }
    before = (exercise / "class/collected.csv").read_bytes()
    assert ": 0 new, 0 replaced, 6 as they were, 0 kept" in collect(
        tmp_path / "from", exercise
    ).stdout.replace("answers", "")
    assert (exercise / "class/collected.csv").read_bytes() == before


def test_letters_with_marks_of_their_own(exercise: Path, tmp_path: Path) -> None:
    """A Mac writes ö as o and a mark: it is the ö of the class list."""
    (exercise / "class").mkdir()
    (exercise / "class/students.csv").write_text("id,name\njörg,Jörg Groß\n", encoding="utf-8")
    folder = tmp_path / "from" / unicodedata.normalize("NFD", "jörg")
    folder.mkdir(parents=True)
    (folder / "1.sql").write_text("SELECT 1\n")
    ran = collect(tmp_path / "from", exercise)
    assert (ran.returncode, ran.stderr) == (0, "")
    assert found(exercise) == {"jörg": {"1": "SELECT 1\n"}}
