"""The page that is tested: the one that WEB_PAGE names, else one that is built here."""
from __future__ import annotations

import os
import subprocess
import sys
from pathlib import Path

import pytest

TOP = Path(__file__).resolve().parents[2]
sys.path[:0] = [
    str(TOP / "python"),
    str(TOP / "tools"),
    str(TOP / "tests"),
    str(Path(__file__).resolve().parent),
]

from release import library  # noqa: E402

BUILD_SECONDS = 850


@pytest.fixture(scope="session")
def page(top: Path, ratest: Path, tmp_path_factory: pytest.TempPathFactory) -> Path:
    given = os.environ.get("WEB_PAGE")
    if given:
        return Path(given).absolute()
    if not library.is_new(top, library.module(top)):
        pytest.skip("ratest_c is not proved and built: tools/library")
    made = tmp_path_factory.mktemp("page") / "ratest.html"
    ran = subprocess.run(
        [top / "tools/web/build", "--out", made],
        capture_output=True,
        text=True,
        timeout=BUILD_SECONDS,
        check=False,
    )
    assert ran.returncode == 0, ran.stderr
    return made
