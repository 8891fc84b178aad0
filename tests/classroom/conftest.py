"""The programs and databases that the tests of `classroom` stand on."""
from __future__ import annotations

import os
import shutil
import sys
import tempfile
from collections.abc import Iterator
from pathlib import Path

import pytest

TOP = Path(__file__).resolve().parents[2]
HERE = Path(__file__).resolve().parent
# The package, and the tests' own modules, a folder for each package of it.
sys.path[:0] = [
    str(TOP / "python"),
    str(HERE),
    *(str(path) for path in sorted(HERE.iterdir()) if path.is_dir()),
]

import products  # noqa: E402
from roles import roles  # noqa: E402, F401


@pytest.fixture(scope="session")
def ratest(ratest: Path) -> Path:
    """The program, of which `classroom` is told too."""
    os.environ["RATEST"] = str(ratest.absolute())
    return ratest.absolute()


@pytest.fixture(scope="session")
def server() -> Iterator[products.Postgres | None]:
    # A path of a socket has at most 107 bytes.
    with tempfile.TemporaryDirectory(prefix="pg") as work, products.server(Path(work)) as made:
        yield made


@pytest.fixture(params=["sqlite", "postgres"])
def product(request: pytest.FixtureRequest) -> products.Product:
    if request.param == "sqlite":
        if not shutil.which("sqlite3"):
            pytest.skip("no program sqlite3: apt-get install sqlite3")
        return products.Sqlite()
    made: products.Postgres | None = request.getfixturevalue("server")
    if made is None:
        pytest.skip("no psql or initdb: apt-get install postgresql")
    return made


@pytest.fixture(scope="session")
def graded_once(ratest: Path, tmp_path_factory: pytest.TempPathFactory) -> Path:
    folder = tmp_path_factory.mktemp("graded") / "beers"
    shutil.copytree(TOP / "examples/beers", folder, ignore=shutil.ignore_patterns("results"))
    assert products.classroom("grade", folder).returncode == 0
    return folder


@pytest.fixture
def graded(graded_once: Path, tmp_path: Path) -> Path:
    """A copy of the exercise of the examples with its results."""
    return Path(shutil.copytree(graded_once, tmp_path / "beers"))


@pytest.fixture
def beers(tmp_path: Path) -> Path:
    """A copy of the exercise of the examples, without results."""
    folder = tmp_path / "beers"
    shutil.copytree(TOP / "examples/beers", folder, ignore=shutil.ignore_patterns("results"))
    return folder
