"""What is kept of a student, and its removal, over a whole exercise."""
from __future__ import annotations

import json
import shutil
import zipfile
from pathlib import Path

import pytest
from products import TOP, classroom

pytest.importorskip("jinja2")

from classroom.web.hand_ins import HandIns, last_before  # noqa: E402

MARKS = (
    "task,student,text,mistake,outcome,points,comment,rule,by,time\n"
    "1,b,,,,1,of b,,,\n"
    "1,Zoë,,,,0.5,a word to Zoë,,,\n"
)


@pytest.fixture
def kept(ratest: Path, tmp_path: Path) -> Path:
    """An exercise with an answer, an older one, marks, feedback and hand-ins of Zoë, and of others."""
    folder = tmp_path / "beers"
    shutil.copytree(TOP / "examples/beers", folder, ignore=shutil.ignore_patterns("results"))
    (folder / "class").mkdir(exist_ok=True)
    (folder / "class/students.csv").write_text(
        "id,name,email\nZoë,Zoë Quill,zoe@example.org\nb,Ben\n".replace("b,Ben", "b,Ben,")
    )
    handed = tmp_path / "in"
    for text in ("SELECT name FROM bar", "SELECT name AS zoes_text FROM bar"):
        (handed / "Zoë").mkdir(parents=True, exist_ok=True)
        (handed / "Zoë/1.sql").write_text(text)
        (handed / "Zoë/notes.xyz").write_text("of no task")
        classroom("collect", handed, folder)
    (folder / "class/marks.csv").write_text(MARKS)
    assert classroom("grade", folder).returncode in (0, 1)
    assert classroom("feedback", folder).returncode in (0, 1)
    made = HandIns(folder / "results/handed-in.db")
    for login in ("zoe@example.org", "b"):
        made.put(login, "2", f"SELECT '{login}'")
    assert made.choose("zoe@example.org", "2", None)
    made.close()
    return folder


def bytes_with(folder: Path, *words: str) -> set[str]:
    """The files in which a word stands, or in whose name."""
    return {
        str(path.relative_to(folder))
        for path in folder.rglob("*")
        if path.is_file()
        and any(word in path.name or word.encode() in path.read_bytes() for word in words)
    }


WORDS = ("Zoë", "zoe@example.org", "zoes_text")


def test_all_of_a_student_goes(kept: Path, tmp_path: Path) -> None:
    before = bytes_with(kept, *WORDS)
    assert {
        "1/answers/Zoë.sql",
        "class/collected.csv",
        "class/marks.csv",
        "results/feedback/Zoë.html",
        "results/tasks/1/Zoë.txt",
        "results/handed-in.db",
        "results/class.csv",
    } <= before and any(name.startswith("class/older/1/Zoë.") for name in before)
    ran = classroom("forget", kept, "zoe@example.org", "--export", tmp_path / "zoe.zip", "--yes")
    assert (ran.returncode, ran.stderr) == (0, "")
    told = ran.stdout.splitlines()
    assert "1/answers/Zoë.sql" in told and "1 line of class/marks.csv, with the comments" in told
    assert "1 text handed in at the page" in told
    assert told[-2] == "all of this is removed, and the tables of the class, of Zoë"
    # The class list is the teacher's; the records of runs have texts without names.
    assert bytes_with(kept, *WORDS[:2]) == {"class/students.csv"}
    assert not bytes_with(kept / "class", "zoes_text") and not bytes_with(kept / "1", "zoes_text")
    assert (kept / "class/marks.csv").read_text() == MARKS.rpartition("1,Zo")[0]
    assert [one.login for one in last_before(kept / "results/handed-in.db", None)] == ["b"]
    # What it had is in the copy.
    with zipfile.ZipFile(tmp_path / "zoe.zip") as copy:
        names = set(copy.namelist())
        assert {"1/answers/Zoë.sql", "results/feedback/Zoë.html", "marks.json"} <= names
        assert json.loads(copy.read("marks.json"))[0]["comment"] == "a word to Zoë"
        (handed_in,) = json.loads(copy.read("handed-in.json"))
        assert handed_in["text"] == "SELECT 'zoe@example.org'" and handed_in["task"] == "2"
        assert {line["state"] for line in json.loads(copy.read("collected.json"))} >= {"placed"}
    # The others are graded as before.
    classroom("grade", kept)
    # Still in the class list, with nothing handed in.
    assert bytes_with(kept / "results", "Zoë") <= {"class.csv", "teacher.html"}
    assert "Zoë,Zoë Quill,,,,,,0,0" in (kept / "results/class.csv").read_text()
    assert classroom("forget", kept, "Zoë").stdout == "nothing is kept of Zoë\n"


def test_without_a_yes_nothing_goes(kept: Path, tmp_path: Path) -> None:
    def files() -> dict[Path, bytes]:
        found = [
            path for path in kept.rglob("*") if path.is_file() and "handed-in" not in path.name
        ]
        return {path: path.read_bytes() for path in found}

    before = files()
    ran = classroom("forget", kept, "Zoë")
    assert ran.returncode == 1
    assert ran.stderr == "classroom: nothing was removed: --yes removes it without asking\n"
    assert files() == before
    assert len(last_before(kept / "results/handed-in.db", None)) == 1


def test_whose_name_begins_alike_stays(kept: Path) -> None:
    (kept / "1/answers/Zoë.b.sql").write_text("SELECT 1")
    (kept / "1/answers/Zo.sql").write_text("SELECT 1")
    assert classroom("forget", kept, "Zoë", "--yes").returncode == 0
    assert {path.name for path in (kept / "1/answers").iterdir()} >= {"Zoë.b.sql", "Zo.sql"}
