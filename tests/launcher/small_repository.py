"""A small repository with the launcher in it and a command rt that proves nothing."""
from __future__ import annotations

import os
import shutil
import subprocess
import time
from collections.abc import Sequence
from dataclasses import dataclass, field
from pathlib import Path

import pytest

HERE = Path(__file__).resolve().parent
LAUNCHER = ("ratest", "ratest_plus", "README.md", "TOOLCHAIN", "VERSION", "HANDLES", "tools/launch")
FOLDERS = ("tools/launcher", "tools/manual")
CRATES = "other:\nlow:\nhigh: low csv\nratest: low high\nratest_plus: low\n"
LINE = "rattle-kit-13f logic dac8208d650f15bf"
SECONDS = 60


def copy_launcher(top: Path, to: Path) -> None:
    """Copies what the launcher consists of."""
    for name in LAUNCHER:
        (to / name).parent.mkdir(parents=True, exist_ok=True)
        shutil.copy(top / name, to / name)
    for name in FOLDERS:
        shutil.copytree(top / name, to / name)


@dataclass
class Repository:
    """A small repository, and an environment in which its programs are called."""

    top: Path
    temporary: Path
    home: Path
    calls_file: Path
    environment: dict[str, str] = field(default_factory=dict)

    def run(
        self, *words: str | Path, program: str | Path = "./ratest", **more: str
    ) -> subprocess.CompletedProcess[str]:
        """Calls the program in the repository's folder; the names in `more` go into its
        environment."""
        return subprocess.run(
            [program, *words],
            cwd=self.top,
            env={**self.environment, **more},
            text=True,
            capture_output=True,
            stdin=subprocess.DEVNULL,
            timeout=SECONDS,
        )

    def start(
        self, *words: str | Path, program: str | Path = "./ratest", **more: str
    ) -> subprocess.Popen[str]:
        """The same without waiting for its end."""
        return subprocess.Popen(
            [program, *words],
            cwd=self.top,
            env={**self.environment, **more},
            text=True,
            stdout=subprocess.PIPE,
            stderr=subprocess.PIPE,
            stdin=subprocess.DEVNULL,
        )

    def calls(self) -> list[str]:
        """The commands of rt that were called, in order."""
        return self.calls_file.read_text().split() if self.calls_file.exists() else []

    def wait_for_calls(self, wanted: Sequence[str]) -> None:
        end = time.monotonic() + SECONDS
        while self.calls() != list(wanted):
            assert time.monotonic() < end, f"{self.calls()} were called, and not {wanted}"
            time.sleep(0.02)

    def left(self) -> list[str]:
        """The temporary files that are left."""
        return sorted(os.listdir(self.temporary))

    def changed(self) -> list[str]:
        """The files that no copy of the launcher and no sources are."""
        return sorted(
            str(path.relative_to(self.top))
            for path in self.top.rglob("*")
            if path.is_file() and "out" in path.parts
        )

    def processes(self) -> list[str]:
        """The processes that run in this repository's name: those with its temporary folder in
        their environment."""
        found = []
        for folder in Path("/proc").glob("[0-9]*"):
            try:
                if f"RATEST_TEST={self.top}".encode() in (folder / "environ").read_bytes():
                    found.append((folder / "cmdline").read_bytes().replace(b"\0", b" ").decode())
            except OSError:
                pass
        return found


@pytest.fixture
def repository(top: Path, tmp_path: Path) -> Repository:
    place = tmp_path / "a repository"
    copy_launcher(top, place)
    (place / "crates.txt").write_text(CRATES)
    for line in CRATES.splitlines():
        crate = line.split(":")[0]
        source = (
            place
            / "crates"
            / crate
            / "src"
            / ("main.rt" if crate.startswith("ratest") else "lib.rt")
        )
        source.parent.mkdir(parents=True)
        source.write_text(f"//! {crate}\n")
    tools = tmp_path / "bin"
    tools.mkdir()
    (tools / "rt").symlink_to(HERE / "fake_rt")
    temporary, home = tmp_path / "temporary", tmp_path / "home"
    temporary.mkdir()
    home.mkdir()
    environment = {
        "PATH": f"{tools}:/usr/bin:/bin",
        "HOME": str(home),
        "TMPDIR": str(temporary),
        "FAKE_LINE": LINE,
        "FAKE_CALLS": str(tmp_path / "calls"),
        "RATEST_TEST": str(place),
    }
    return Repository(place, temporary, home, tmp_path / "calls", environment)
