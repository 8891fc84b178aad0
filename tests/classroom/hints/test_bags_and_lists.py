"""Mistakes in how often rows come, or in their order alone: over SQLite, and over PostgreSQL where
it decides."""
from __future__ import annotations

import contextlib
from collections.abc import Iterator
from pathlib import Path

import pytest

pytest.importorskip("sqlglot", reason="no sqlglot: apt-get install python3-sqlglot")

import judged  # noqa: E402
from cases import HERE  # noqa: E402
from roles import Roles, roles  # noqa: E402, F401

from classroom.exercise import sources  # noqa: E402
from classroom.hints import recording  # noqa: E402
from classroom.engines.postgres_sample import Tables  # noqa: E402
from classroom.hints.repairs import Ground, Search  # noqa: E402
from classroom.verdict.compare import DUPLICATES, ORDER, ROWS  # noqa: E402
from classroom.exercise.typed_rows import of_schema  # noqa: E402

# The kind of difference, a reference, an answer, the mistake and the marked place.
CASES = [
    (
        DUPLICATES,
        "SELECT DISTINCT bar FROM serves",
        "SELECT bar FROM serves",
        "DISTINCT added",
        "SELECT ",
    ),
    (
        DUPLICATES,
        "SELECT bar FROM serves WHERE price < 5",
        "SELECT DISTINCT bar FROM serves WHERE price < 5",
        "DISTINCT dropped",
        "SELECT DISTINCT ",
    ),
    (
        DUPLICATES,
        "SELECT bar FROM serves UNION SELECT bar FROM frequents",
        "SELECT bar FROM serves UNION ALL SELECT bar FROM frequents",
        "UNION for UNION ALL",
        "UNION ALL",
    ),
    (
        DUPLICATES,
        "SELECT bar FROM serves UNION ALL SELECT bar FROM frequents",
        "SELECT bar FROM serves UNION SELECT bar FROM frequents",
        "UNION ALL for UNION",
        "UNION",
    ),
    (
        ORDER,
        "SELECT bar, beer FROM serves ORDER BY bar, beer",
        "SELECT bar, beer FROM serves ORDER BY bar, beer DESC",
        "ASC for DESC of beer",
        "ORDER BY bar, beer DESC",
    ),
    (
        ORDER,
        "SELECT name FROM drinker ORDER BY name DESC",
        "SELECT name FROM drinker ORDER BY name",
        "DESC for ASC of name",
        "ORDER BY name",
    ),
    (
        ORDER,
        "SELECT name FROM drinker ORDER BY name",
        "SELECT name FROM drinker",
        "ORDER BY added",
        "drinker",
    ),
    (
        ORDER,
        "SELECT bar, beer FROM serves ORDER BY beer, bar",
        "SELECT bar, beer FROM serves ORDER BY bar, beer",
        "ORDER BY of other columns",
        "ORDER BY bar, beer",
    ),
]


def told(of: Ground, reference: str, answer: str) -> tuple[str, str, str, list[str]]:
    """The mistake, its place, who decides and the sentences."""
    found = Search(of, reference, is_tried=True).repairs(answer)
    assert found.best, (reference, answer)
    record = recording.of_found(found, None)
    return (
        found.best.mistake,
        answer[slice(*found.best.place)],
        record.decided_by,
        [step.text for step in record.steps],
    )


@pytest.mark.parametrize("kind, reference, answer, mistake, place", CASES)
def test_over_sqlite(
    kind: str,
    reference: str,
    answer: str,
    mistake: str,
    place: str,
    tmp_path: Path,
    ratest_plus: Path,
) -> None:
    of = Ground(judged.ground("beers").rows, None, tmp_path, kind=kind)
    found = told(of, reference, answer)
    assert found[:2] == (mistake, place)
    assert found[2].startswith("sqlite 3.") and "as far as was tried" in found[3][0]
    # Nothing of it is proved.
    assert "on every part" not in " ".join(found[3])


@pytest.fixture(scope="module")
def tables(roles: Roles) -> Iterator[Tables]:  # noqa: F811
    material = of_schema(sources.of_exercise(HERE / "beers"), "postgresql")
    with contextlib.closing(Tables(material, roles.loader, roles.asker)) as made:
        yield made


def over(tables: Tables, kind: str, folder: Path) -> Ground:
    return Ground(
        sources.of_exercise(HERE / "beers"),
        None,
        folder,
        kind=kind,
        holds=tables.holding,
        engine=tables.label,
    )


@pytest.mark.parametrize("kind, reference, answer, mistake, place", CASES)
def test_over_postgresql(
    kind: str, reference: str, answer: str, mistake: str, place: str, tmp_path: Path, tables: Tables
) -> None:
    found = told(over(tables, kind, tmp_path), reference, answer)
    assert found[:2] == (mistake, place) and found[2].startswith("postgresql ")


@pytest.mark.parametrize(
    "reference, answer, mistake",
    [
        (
            (
                "SELECT bar, COUNT(*) FROM serves WHERE price::text > '2' GROUP BY bar HAVING"
                " COUNT(*) > 1"
            ),
            (
                "SELECT bar, COUNT(*) FROM serves WHERE price::text > '2' GROUP BY bar HAVING"
                " COUNT(*) >= 1"
            ),
            "> for >=",
        ),
        (
            (
                "SELECT d.name, COUNT(f.bar) FROM drinker d LEFT JOIN frequents f ON f.drinker ="
                " d.name GROUP BY d.name"
            ),
            (
                "SELECT d.name, COUNT(*) FROM drinker d LEFT JOIN frequents f ON f.drinker = d.name"
                " GROUP BY d.name"
            ),
            "COUNT(f.bar) for COUNT(*)",
        ),
    ],
)
def test_what_postgresql_alone_reads(
    reference: str, answer: str, mistake: str, tmp_path: Path, tables: Tables
) -> None:
    of = over(tables, ROWS, tmp_path)
    search = Search(of, reference, is_tried=True)
    found = search.repairs(answer)
    assert mistake in {edit.mistake for edit in found.edits[:3]}, [
        edit.mistake for edit in found.edits
    ]
    assert (
        found.tried == len(of.wide.parts) > 100 and found.is_guarded and search.classes(answer).best
    )


def test_rows_that_postgresql_does_not_take_stand_in_no_part(tables: Tables) -> None:
    """As a second row of a key, or what refers to it; guards may have such ones."""
    pool = sources.of_exercise(HERE / "beers")
    at = next(number for number, held in enumerate(pool.held) if held.table.name == "serves")
    pool.held[at].rows[0] = (*pool.held[at].rows[0][:-1], "no number")
    lawful = tables.holding(pool).lawful()
    assert len(lawful) == len(pool.lawful) - 1 and (at, 0) not in lawful
