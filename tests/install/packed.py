"""A copy of the repository with the proved programs in it, and the packages that are made there."""
from __future__ import annotations

import os
import shutil
import subprocess
from pathlib import Path

import pytest

SECONDS = 300
IDENTITY = {
    "GIT_AUTHOR_NAME": "A. Author",
    "GIT_AUTHOR_EMAIL": "author@ratest.invalid",
    "GIT_AUTHOR_DATE": "2026-01-02T03:04:05Z",
    "GIT_COMMITTER_NAME": "A. Author",
    "GIT_COMMITTER_EMAIL": "author@ratest.invalid",
    "GIT_COMMITTER_DATE": "2026-01-02T03:04:05Z",
}


def copy_repository(top: Path, to: Path, ratest: Path, ratest_plus: Path, archive: Path) -> Path:
    """A copy of the repository as a repository of one commit, which is the same wherever it is
    made."""
    shutil.copytree(
        top,
        to,
        ignore=shutil.ignore_patterns("out", ".git", ".*_cache", "__pycache__"),
        symlinks=True,
    )
    for words in (["init", "-q", "-b", "main"], ["add", "."], ["commit", "-q", "-m", "A copy"]):
        subprocess.run(["git", *words], cwd=to, env={**os.environ, **IDENTITY}, check=True)
    for program, name in (
        (ratest, "ratest/out/ratest"),
        (ratest_plus, "ratest_plus/out/ratest_plus"),
        (archive, "ratest_c/out/libratest_c.a"),
    ):
        place = to / "crates" / name
        place.parent.mkdir()
        # With the time of now, later than the sources'.
        shutil.copyfile(program, place)
        place.chmod(0o755)
    return to


def pack(copy: Path) -> Path:
    """Makes the packages in the copy; gives their folder."""
    subprocess.run(["tools/package"], cwd=copy, check=True, timeout=SECONDS, stdout=subprocess.PIPE)
    return copy / "out/package"


@pytest.fixture(scope="session")
def copy(
    top: Path,
    ratest: Path,
    ratest_plus: Path,
    archive: Path,
    tmp_path_factory: pytest.TempPathFactory,
) -> Path:
    for program in ("git", "help2man", "dpkg-deb", "rt", "cc", "ar"):
        if not shutil.which(program):
            pytest.skip(f"there is no program {program}")
    return copy_repository(
        top, tmp_path_factory.mktemp("copy") / "repository", ratest, ratest_plus, archive
    )


@pytest.fixture(scope="session")
def packages(copy: Path) -> Path:
    """The folder with the packages."""
    return pack(copy)


@pytest.fixture(scope="session")
def beers(top: Path) -> str:
    """What README.md prints of the beers."""
    text = (top / "README.md").read_text()
    call = (
        "$ ./ratest examples/beers/schema.sql examples/beers examples/beers/3/reference.sql"
        " examples/beers/3/answers/b.sql\n"
    )
    return text.split(call)[1].split("```")[0]
