"""The exercises of examples/, graded: what each answer gets was decided by hand."""
from __future__ import annotations

import csv
import shutil
from pathlib import Path

import pytest
from products import TOP, classroom

ALL = "no difference found", "tried"
# By task and student: the grade, and whether it is proved or tried.
SHOP = {
    ("1", "anna"): ("agrees", "proved"),
    ("1", "ben"): ALL,
    ("1", "carla"): ("differs", "proved"),
    ("1", "dora"): ("wrong SQL", "tried"),
    ("2", "anna"): ALL,
    ("2", "ben"): ("differs", "proved"),
    ("2", "carla"): ("differs", "proved"),
    ("3", "anna"): ALL,
    ("3", "ben"): ("differs", "tried"),
    ("3", "carla"): ("differs", "tried"),
    ("4", "anna"): ALL,
    ("4", "ben"): ("differs", "tried"),
    ("4", "dora"): ("differs", "proved"),
    ("5", "anna"): ("agrees", "proved"),
    ("5", "ben"): ("differs", "proved"),
    # No product costs just 5, so no part of these rows tells `<=` from `<`.
    ("5", "carla"): ("agrees", "proved"),
    ("5", "dora"): ("differs", "proved"),
}
POINTS = {"anna": "10", "ben": "1", "carla": "3", "dora": "0"}


@pytest.mark.usefixtures("ratest")
def test_the_shop(tmp_path: Path) -> None:
    folder = tmp_path / "shop"
    shutil.copytree(TOP / "examples/shop", folder, ignore=shutil.ignore_patterns("results"))
    assert classroom("grade", folder).returncode == 0
    with open(folder / "results/grades.csv", encoding="utf-8", newline="") as file:
        found = {(row["task"], row["answer"]): row for row in csv.DictReader(file)}
    assert set(found) == set(SHOP)
    for key, (grade, how) in SHOP.items():
        by = found[key]["decided_by"]
        assert found[key]["grade"] == grade, key
        assert by.startswith("sqlite") == (how == "tried"), key
    with open(folder / "results/class.csv", encoding="utf-8", newline="") as file:
        assert {row["id"]: row["points"] for row in csv.DictReader(file)} == POINTS
