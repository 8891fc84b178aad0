"""Each command of docs/INSTALL.md, as it stands: what installs for all runs in a root of its
own."""
from __future__ import annotations

import os
import re
import shutil
import subprocess
from pathlib import Path

import pytest

SECONDS = 900
TOP = Path(__file__).resolve().parents[2]
SECTIONS = re.findall(
    r"^## ([^\n]*)\n(.*?)(?=^## |\Z)",
    (TOP / "docs/INSTALL.md").read_text(encoding="utf-8"),
    re.MULTILINE | re.DOTALL,
)
BLOCKS = {
    title: block
    for title, text in SECTIONS
    for block in re.findall(r"^```\n(.*?)^```", text, re.MULTILINE | re.DOTALL)
}
# The machine's files below, and all that is written in a folder of its own.
IN_A_ROOT = (
    'set -eu; mount -t tmpfs tmpfs "$1"; mkdir "$1/up" "$1/work" "$1/root"\nmount -t overlay'
    ' overlay -o "lowerdir=/,upperdir=$1/up,workdir=$1/work" "$1/root" || exit 77\nmount -t tmpfs'
    ' tmpfs "$1/root/tmp"; mount -t proc proc "$1/root/proc"; mount --bind /dev "$1/root/dev"\ncp'
    ' "$2" "$1/root/tmp"; exec chroot "$1/root" sh -euc "$3"\n'
)


def ran(words: list[str | Path], **more: object) -> subprocess.CompletedProcess[str]:
    return subprocess.run(words, text=True, capture_output=True, timeout=SECONDS, stdin=subprocess.DEVNULL, **more)  # type: ignore[call-overload,no-any-return]


def test_every_block_is_tried() -> None:
    assert set(BLOCKS) == {
        "From a Debian package",
        "From a wheel",
        "From the repository",
        "A grader's container",
    }


def test_the_debian_package(packages: Path, tmp_path: Path) -> None:
    if os.geteuid() != 0 or ran(["unshare", "--mount", "true"]).returncode:
        pytest.skip("only root has a root of its own to install in")
    script = (
        "cd /tmp; export"
        f" DEBIAN_FRONTEND=noninteractive\n{BLOCKS['From a Debian package'].replace('apt install', 'apt install --yes')}ratest"
        " --version"
    )
    (tmp_path / "mounted").mkdir()
    found = ran(
        [
            "unshare",
            "--mount",
            "--propagation",
            "private",
            "sh",
            "-c",
            IN_A_ROOT,
            "sh",
            tmp_path / "mounted",
            next(packages.glob("*.deb")),
            script,
        ]
    )
    if (
        found.returncode == 77
        or "Failed to fetch" in found.stderr
        or "Could not resolve" in found.stderr
    ):
        pytest.skip("no overlay, or no package to be had here")
    assert found.returncode == 0 and "build: proved" in found.stdout, found.stderr


def test_the_wheel(packages: Path, tmp_path: Path) -> None:
    shutil.copy(next(packages.glob("*.whl")), tmp_path)
    made = ran(["/usr/bin/python3", "-m", "venv", tmp_path / "probe"])
    if made.returncode:
        pytest.skip("no virtual environment: apt-get install python3-venv")
    # As where there is no index at all.
    environment = {
        "PATH": "/usr/bin:/bin",
        "HOME": str(tmp_path),
        "PIP_NO_INDEX": "1",
        "PIP_DISABLE_PIP_VERSION_CHECK": "1",
    }
    found = ran(["sh", "-euc", BLOCKS["From a wheel"]], cwd=tmp_path, env=environment)
    version = (TOP / "VERSION").read_text().strip()
    assert found.returncode == 0 and found.stdout.endswith(f"classroom {version}\n"), found.stderr


def test_the_repository(copy: Path, tmp_path: Path) -> None:
    found = ran(
        ["sh", "-euc", BLOCKS["From the repository"]],
        cwd=copy,
        env={**os.environ, "HOME": str(tmp_path)},
    )
    assert found.returncode == 0, found.stderr
    told = ran([tmp_path / ".local/bin/ratest", "--version"])
    assert "build: proved" in told.stdout


def test_the_container(packages: Path, top: Path, tmp_path: Path) -> None:
    if not shutil.which("docker") or ran(["docker", "info"]).returncode:
        pytest.skip(
            "no engine of containers; test_package runs the Dockerfile's steps in an empty root"
        )
    shutil.copy(next(packages.glob("*.deb")), tmp_path)
    shutil.copy(top / "examples/container/Dockerfile", tmp_path)
    shutil.copytree(top / "examples/beers", tmp_path / "exercise")
    shutil.copy(top / "examples/beers/3/reference.sql", tmp_path / "exercise/reference.sql")
    (tmp_path / "answers").mkdir()
    shutil.copy(top / "examples/beers/3/answers/a.sql", tmp_path / "answers/1.sql")
    (tmp_path / "answers/list").write_text("/answers/1.sql\n")
    found = ran(["sh", "-uc", BLOCKS["A grader's container"]], cwd=tmp_path)
    assert (
        "/answers/1.sql: witness 5\n" in found.stdout and "witness: 5\n" in found.stdout
    ), found.stderr
