"""examples/gradescope: its two scripts over the Debian package, in a root of their own."""
from __future__ import annotations

import json
import os
import shutil
import subprocess
from pathlib import Path

import pytest

SECONDS = 600
# The machine's files below, and all that is written in a folder of its own.
MOUNTED = (
    'set -eu; mount -t tmpfs tmpfs "$1"; mkdir "$1/up" "$1/work" "$1/root"\nmount -t overlay'
    ' overlay -o "lowerdir=/,upperdir=$1/up,workdir=$1/work" "$1/root"\nmount -t tmpfs tmpfs'
    ' "$1/root/tmp"; mount -t proc proc "$1/root/proc"; cp -r "$2" "$1/root/autograder"\ncp'
    ' /dev/null "$1/root/dev/null" 2>/dev/null || mount --bind /dev "$1/root/dev"\nchroot "$1/root"'
    ' /autograder/source/setup.sh >"$3/setup.log" 2>&1\nchroot "$1/root" sh -c "cd / &&'
    ' /autograder/source/run_autograder" >"$3/run.log" 2>&1\ncp'
    ' "$1/root/autograder/results/results.json" "$3"\n'
)


@pytest.fixture
def autograder(packages: Path, top: Path, tmp_path: Path) -> Path:
    """What Gradescope makes of the zip file, and a submission of one right and one wrong answer."""
    place = tmp_path / "autograder"
    (place / "source").mkdir(parents=True)
    for name in ("setup.sh", "run_autograder"):
        shutil.copy(top / "examples/gradescope" / name, place / "source")
    shutil.copy(next(packages.glob("*.deb")), place / "source")
    shutil.copytree(
        top / "examples/beers",
        place / "source/exercise",
        ignore=shutil.ignore_patterns("results", "teacher.html"),
    )
    (place / "submission").mkdir()
    shutil.copy(top / "examples/beers/3/answers/b.sql", place / "submission/3.sql")
    shutil.copy(top / "examples/beers/1/reference.sql", place / "submission/1.sql")
    return place


def test_the_scripts_in_a_root_of_their_own(autograder: Path, tmp_path: Path) -> None:
    if (
        os.geteuid() != 0
        or subprocess.run(["unshare", "--mount", "true"], capture_output=True).returncode
    ):
        pytest.skip("only root gives the scripts a root of their own")
    for name in ("mounted", "told"):
        (tmp_path / name).mkdir()
    ran = subprocess.run(
        [
            "unshare",
            "--mount",
            "--propagation",
            "private",
            "sh",
            "-c",
            MOUNTED,
            "sh",
            tmp_path / "mounted",
            autograder,
            tmp_path / "told",
        ],
        text=True,
        capture_output=True,
        timeout=SECONDS,
    )
    told = {path.name: path.read_text(errors="replace") for path in (tmp_path / "told").iterdir()}
    log = told.get("setup.log", "")
    if ran.returncode and (
        "overlay" in ran.stderr or "Could not resolve" in log or "Failed to fetch" in log
    ):
        pytest.skip("no overlay, or no package to be had here")
    assert ran.returncode == 0, (ran.stderr, told)
    made = json.loads(told["results.json"])
    assert made["score"] == 1 and [test.get("status") for test in made["tests"]] == [
        "passed",
        "failed",
        "failed",
        "failed",
        "failed",
    ]
    assert (
        "differs on 5 rows" in made["tests"][2]["output"]
        and "nothing was handed in" in made["tests"][1]["output"]
    )
    assert not Path("/autograder").exists()
