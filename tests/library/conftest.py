"""The library that the tests of this folder stand on."""
from __future__ import annotations

import os
import shutil
import sys
from pathlib import Path

import pytest

TOP = Path(__file__).resolve().parents[2]
sys.path[:0] = [str(TOP / "python"), str(TOP / "tools")]

from release import library as release  # noqa: E402


@pytest.fixture(scope="session")
def built(archive: Path, tmp_path_factory: pytest.TempPathFactory) -> Path:
    """A folder with the header and both libraries, made as tools/library makes them."""
    for tool in ("rt", "cc", "ar"):
        if not shutil.which(tool):
            pytest.skip(f"there is no program {tool}")
    folder = tmp_path_factory.mktemp("library")
    shutil.copy(TOP / "c" / release.HEADER, folder)
    release.join(folder, folder / release.STATIC, [archive, release.heap()])
    release.link(TOP / "c/libratest.map", folder / release.STATIC, folder / release.SHARED)
    return folder


@pytest.fixture(scope="session")
def shared(built: Path) -> Path:
    """The shared object, of which the package `ratest` is told too."""
    path = built / release.SHARED
    os.environ["LIBRATEST"] = str(path)
    return path
