"""What each of the three reads, construct by construct, is what the documents say."""
from __future__ import annotations

import sqlite3
from collections.abc import Callable
from pathlib import Path

import products
import pytest
from constructs import NO, REWRITTEN, YES, constructs, table
from products import classroom
from roles import Roles

from classroom.engines.child import tried
from classroom.exercise.material import read
from classroom.verdict.verdict import Refusal

HERE = Path(__file__).resolve().parent
SCRIPT = (HERE / "constructs.sql").read_text()
REFERENCE = HERE.parents[1] / "docs/REFERENCE.md"
FOUND = list(constructs())


def differing(signs: Callable[[str], str], place: int) -> dict[str, str]:
    """The queries of which the list says something else than is found."""
    found = {one.query: signs(one.query) for one in FOUND}
    return {one.query: found[one.query] for one in FOUND if found[one.query] != one[place]}


@pytest.fixture(scope="module")
def imported(ratest: Path, tmp_path_factory: pytest.TempPathFactory) -> Path:
    folder = tmp_path_factory.mktemp("constructs")
    with sqlite3.connect(folder / "school.db") as database:
        database.executescript(SCRIPT)
    database.close()
    made = classroom("import", folder / "school.db", folder / "class")
    assert made.returncode == 0, made.stderr
    return folder / "class"


def asked(folder: Path, query: str, engines: dict[str, str]) -> str:
    """What a database says of a query against itself."""
    material = read(folder)
    assert material
    found = tried(material, {"reference": query, "answer": query, "order": False, **engines})
    if isinstance(found.outcome, Refusal):
        return NO
    return REWRITTEN if "after rewriting" in found.engine else YES


def test_ratest(ratest: Path, imported: Path) -> None:
    def signs(query: str) -> str:
        (imported / "query").write_text(query)
        ran = products.run(ratest, "schema.sql", ".", "query", "query", cwd=imported)
        return YES if ran.returncode == 0 and ran.stdout == "agree\n" else NO

    assert differing(signs, 3) == {}


def test_sqlite(imported: Path) -> None:
    assert differing(lambda query: asked(imported, query, {}), 4) == {}


def test_postgresql(ratest: Path, roles: Roles, tmp_path: Path) -> None:
    owner = roles.owner.replace("ratest_scratch", "school")
    everywhere = owner.replace("dbname=school", "dbname=postgres")
    for call in (["-c", "CREATE DATABASE school"], ["-f", str(HERE / "constructs.sql")]):
        place = everywhere if call[0] == "-c" else owner
        done = products.run("psql", "-X", "-q", "-v", "ON_ERROR_STOP=1", "-d", place, *call)
        assert done.returncode == 0, done.stderr
    made = classroom("import", owner, tmp_path / "class")
    assert made.returncode == 0, made.stderr
    engines = {"engine": roles.loader, "asker": roles.asker}
    assert differing(lambda query: asked(tmp_path / "class", query, engines), 5) == {}


def test_the_table_of_the_documents() -> None:
    assert table() in REFERENCE.read_text(encoding="utf-8")
    assert len(FOUND) >= 150
    assert len({one.query for one in FOUND}) == len(FOUND)
