"""The platforms that are known: each module is in the registry, and the teaching guide says the
same."""
from __future__ import annotations

import csv
import importlib
import re
from pathlib import Path

import made_archives
import pytest
from classroom.platforms.registry import PLATFORMS
from products import TOP, classroom

PACKAGE = TOP / "python/classroom/platforms"


def table(begin: str) -> list[list[str]]:
    """The rows of a table of the teaching guide, below its mark."""
    text = (TOP / "docs/TEACHING.md").read_text(encoding="utf-8")
    part = text.split(begin)[1].split("<!-- end -->")[0]
    return [
        [cell.strip() for cell in line.strip("|").split(" | ")]
        for line in part.splitlines()
        if line.startswith("| ")
    ][1:]


def test_each_module_of_a_platform_is_in_the_registry() -> None:
    modules = [
        importlib.import_module(f"classroom.platforms.{path.stem}")
        for path in PACKAGE.glob("*.py")
        if re.search(r"^PLATFORM = ", path.read_text(encoding="utf-8"), re.MULTILINE)
    ]
    assert {one.PLATFORM.name for one in modules} == {one.name for one in PLATFORMS}
    for module in modules:
        assert module.__name__.endswith(f".{module.PLATFORM.name}")
        # From where the form is known is told at the head, too.
        assert "Source: " in (module.__doc__ or "") or module.PLATFORM.name == "folders"


def test_the_guide_has_the_platforms() -> None:
    rows = table("the platforms' archives -->")
    told = [(row[0], row[1].strip("`").split()[-1], row[3]) for row in rows]
    known = [(one.title, one.name, one.source) for one in PLATFORMS if one.names]
    assert told == known and len(told) >= 4
    options = {re.sub(r"`", "", row[0]) for row in table("the platforms' tables -->")}
    assert options == {f"--for {one.name}" for one in PLATFORMS if one.table} | {
        f"--zip {one.name}" for one in PLATFORMS if one.place
    }


@pytest.mark.parametrize("option", ["--for", "--zip"])
def test_a_table_of_nobody_is_refused_by_name(option: str) -> None:
    ran = classroom("feedback", "nothing", option, "blackboard")
    assert ran.returncode == 2 and "moodle" in ran.stderr


def test_canvas_knows_its_numbers_by_the_archive(ratest: Path, tmp_path: Path) -> None:
    """Without a class list."""
    folder = tmp_path / "exercise"
    (folder / "1").mkdir(parents=True)
    (folder / "1/reference.sql").write_text("SELECT a FROM t\n")
    (folder / "schema.sql").write_text("CREATE TABLE t (a INTEGER PRIMARY KEY);\n")
    (folder / "t.csv").write_text("a\n1\n")
    people = made_archives.PEOPLE[:2]
    answers = {one.id: {"1": "SELECT a FROM t\n"} for one in people}
    archive = made_archives.canvas(tmp_path / "c.zip", answers, people)
    assert classroom("collect", archive, folder).returncode == 0
    assert classroom("grade", folder).returncode in (0, 1)
    assert classroom("feedback", folder, "--for", "canvas", "--assignment", "A").returncode == 0
    with open(folder / "results/feedback/canvas.csv", encoding="utf-8", newline="") as file:
        rows = list(csv.DictReader(file))
    assert {(row["ID"], row["A"]) for row in rows} == {(one.canvas, "1") for one in people}
