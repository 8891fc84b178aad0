"""Hints where ties leave open what a reference returns: none over all rows, and else none of the
parts that have ties counts."""
from __future__ import annotations

import contextlib
from collections.abc import Iterator
from pathlib import Path

import pytest

pytest.importorskip("sqlglot", reason="no sqlglot: apt-get install python3-sqlglot")

from roles import Roles  # noqa: E402

from classroom.base.errors import Fault  # noqa: E402
from classroom.engines.postgres_sample import Tables  # noqa: E402
from classroom.exercise.rows import Cells, Held, Pool  # noqa: E402
from classroom.exercise.typed_rows import POSTGRESQL, SQLITE, of_schema  # noqa: E402
from classroom.hints.repairs import Ground, Search  # noqa: E402
from classroom.sql.schema import tables_of  # noqa: E402

SCHEMA = "CREATE TABLE item (id INTEGER PRIMARY KEY, name TEXT, city TEXT, price INTEGER);"
MOST = "SELECT city FROM item GROUP BY city ORDER BY COUNT(*) DESC"


@pytest.fixture(params=[SQLITE, POSTGRESQL])
def roles_or_none(request: pytest.FixtureRequest) -> Roles | None:
    return request.getfixturevalue("roles") if request.param == POSTGRESQL else None


@contextlib.contextmanager
def ground(work: Path, cities: str, roles: Roles | None) -> Iterator[Ground]:
    """Over an item of each of these cities."""
    rows: list[Cells] = [(at, f"n{at}", city, at) for at, city in enumerate(cities)]
    pool = Pool(SCHEMA.encode(), [Held(tables_of(SCHEMA)[0], rows, [(0,)], [])])
    with contextlib.ExitStack() as stack:
        if roles is None:
            yield Ground(pool, None, work)
        else:
            of = of_schema(pool, POSTGRESQL)
            tables = stack.enter_context(contextlib.closing(Tables(of, roles.loader, roles.asker)))
            yield Ground(of.pool, None, work, holds=tables.holding, engine=tables.label)


def test_no_hint_where_ties_leave_all_rows_open(
    tmp_path: Path, roles_or_none: Roles | None
) -> None:
    with ground(tmp_path, "XYXY", roles_or_none) as made:
        with pytest.raises(Fault, match="ties"):
            Search(made, f"{MOST} LIMIT 1", True)
        Search(made, f"{MOST}, city LIMIT 1", True)


def test_parts_with_ties_tell_nothing(tmp_path: Path, roles_or_none: Roles | None) -> None:
    """Whichever of two cities a right answer takes where both have as many items."""
    with ground(tmp_path, "XXXXXYYZ", roles_or_none) as made:
        search = Search(made, f"{MOST} LIMIT 1", True)
        assert None in search.wanted and any(search.wanted)
        for key in ("city", "city DESC", "MIN(id)", "MAX(id) DESC"):
            assert search.base.passes(f"{MOST}, {key} LIMIT 1", search.wanted), key
        assert not search.base.passes(f"{MOST.removesuffix(' DESC')} LIMIT 1", search.wanted)
