"""Mistakes and hints where PostgreSQL decides: of a class, and at the page where students ask."""
from __future__ import annotations

import csv
import html
import io
import os
import re
import shutil
from pathlib import Path

import pytest
from products import TOP, classroom
from roles import Roles
from served import Reply, Server, serving

pytest.importorskip("flask")
pytest.importorskip("waitress")
pytest.importorskip("limits")

# SQLite reads neither `::` nor ILIKE; the name of the references is one that no answer needs.
ANSWER = (
    "SELECT bar, COUNT(*) FROM serves WHERE price::text ILIKE '%' GROUP BY bar HAVING COUNT(*) >= 1"
)
TWICE = "SELECT bar FROM serves WHERE beer ILIKE '%'"
REFERENCES = {
    "6": ANSWER.replace(">= 1", "> 1").replace("serves", "serves secret_4711"),
    "7": TWICE.replace(
        "SELECT bar FROM serves", "SELECT DISTINCT secret_4711.bar FROM serves secret_4711"
    ),
}


@pytest.fixture
def exercise(ratest: Path, ratest_plus: Path, roles: Roles, tmp_path: Path) -> Path:
    os.environ["RATEST"], os.environ["RATEST_PLUS"] = str(ratest.absolute()), str(
        ratest_plus.absolute()
    )
    folder = Path(
        shutil.copytree(
            TOP / "examples/beers",
            tmp_path / "beers",
            ignore=shutil.ignore_patterns("results", "[1-5]", "teacher.html"),
        )
    )
    for task, answer in (("6", ANSWER), ("7", TWICE)):
        (folder / task / "answers").mkdir(parents=True)
        (folder / task / "reference.sql").write_text(REFERENCES[task])
        (folder / task / "answers/ann.sql").write_text(answer)
    (folder / "exercise.toml").write_text(
        f'hints = 3\nengine = "{roles.loader}"\nengine_asker = "{roles.asker}"\n'
    )
    return folder


def hints(got: Reply) -> list[str]:
    return [html.unescape(text) for text in re.findall(r'<p class="hint">(.*?)</p>', got.answer)]


def hinted(server: Server, step: int) -> Reply:
    """The hint of a step, which is asked for again where a busy machine took too long."""
    for _ in range(5):
        reply = server.hint("6", ANSWER, step)
        if hints(reply):
            break
    return reply


def test_the_mistakes_of_a_class(exercise: Path) -> None:
    classroom("grade", exercise)
    ran = classroom("mistakes", exercise)
    assert ran.returncode == 0, ran.stderr
    lines = {
        line["task"]: line
        for line in csv.DictReader(
            io.StringIO((exercise / "results/mistakes.csv").read_text(), newline="")
        )
    }
    assert {
        task: (line["mistake"], line["kind"], line["decided_by"].split()[0])
        for task, line in lines.items()
    } == {
        "6": ("as the reference with >= for > in the HAVING", "comparison", "postgresql"),
        "7": ("as the reference with DISTINCT dropped in the query", "DISTINCT", "postgresql"),
    }
    assert classroom("feedback", exercise).returncode == 0
    page = html.unescape((exercise / "results/feedback/ann.html").read_text())
    assert "as far as was tried" in page and "on every part of these rows" not in page
    assert "4711" not in page and "SELECT DISTINCT" not in page and "ratest_asker" not in page


def test_hints_where_students_ask(exercise: Path) -> None:
    with serving(exercise, "--hourly", "0", tries=True) as server:
        got = server.ask("6", ANSWER)
        assert got.verdict.startswith("differs (tried) on ")
        replies = [hinted(server, step) for step in (1, 2, 3)]
        told = hints(replies[2])
        assert "as far as was tried" in told[0] and len(told) == 3 and "<mark>" in replies[1].answer
        for reply in (got, *replies):
            assert "4711" not in reply.body and "ratest_asker" not in reply.body


def test_without_connections_that_is_told(exercise: Path) -> None:
    """The grades are there, and what decided them is not there any more."""
    classroom("grade", exercise)
    said = (exercise / "exercise.toml").read_text().splitlines()[0]
    (exercise / "exercise.toml").write_text(f"{said}\n")
    ran = classroom("mistakes", exercise)
    assert (
        ran.returncode == 1
        and "mistakes are not looked for where PostgreSQL decides" in ran.stderr
        and "Traceback" not in ran.stderr
    )
