"""What makes the two roles of a trial in PostgreSQL."""
from __future__ import annotations

import tempfile
from collections.abc import Iterator
from pathlib import Path
from typing import NamedTuple

import products
import pytest

PAGE = Path(__file__).resolve().parents[2] / "docs/SERVER.md"
# The lines of the page for administrators that make them.
ROLES = (
    PAGE.read_text(encoding="utf-8")
    .split("```\nCREATE ROLE")[1]
    .split("```")[0]
    .join(["CREATE ROLE", ""])
)


class Roles(NamedTuple):
    """Connections to one server."""

    owner: str
    loader: str
    asker: str


@pytest.fixture(scope="session")
def roles() -> Iterator[Roles]:
    pytest.importorskip("psycopg", reason="no psycopg: apt-get install python3-psycopg")
    # A path of a socket has at most 107 bytes.
    with tempfile.TemporaryDirectory(prefix="pg") as work, products.server(Path(work)) as made:
        if made is None:
            pytest.skip("no psql or initdb: apt-get install postgresql")
        done = products.run(
            "psql",
            "-X",
            "-q",
            "-v",
            "ON_ERROR_STOP=1",
            "-d",
            f"{made.place} dbname=postgres",
            input=ROLES,
        )
        assert done.returncode == 0, done.stderr
        place = made.place.split()[0]
        yield Roles(
            made.place + " dbname=ratest_scratch",
            f"{place} user=ratest_loader dbname=ratest_scratch",
            f"{place} user=ratest_asker dbname=ratest_scratch",
        )
