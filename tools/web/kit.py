"""The toolchain's folder, and calls of its programs."""
from __future__ import annotations

import os
import resource
import shutil
import subprocess
from collections.abc import Sequence
from dataclasses import dataclass
from pathlib import Path

from launcher import toolchain

from web.failed import Changed, Failed

MEMORY = 16 << 30
# Of what a program prints when it fails.
SHOWN = 2000


@dataclass(frozen=True)
class Kit:
    """The toolchain's folder."""

    folder: Path

    @property
    def rt(self) -> Path:
        return self.folder / "bin/rt"

    @property
    def llvm(self) -> Path:
        """The folder with clang, its linker and its archiver."""
        return self.folder / "toolchain"

    @property
    def clang(self) -> Path:
        return self.llvm / "bin/clang"

    @property
    def archiver(self) -> Path:
        return self.llvm / "bin/llvm-ar"

    @property
    def linker(self) -> Path:
        return self.folder / "bin/rattle-link"


def kit_here(top: Path) -> Kit:
    """The toolchain whose command rt is on the PATH."""
    rt = shutil.which("rt")
    if rt is None:
        raise Failed(toolchain.missing(str(top)))
    found = Kit(Path(rt).resolve().parent.parent)
    for part in (found.rt, found.clang, found.archiver, found.linker):
        if not os.access(part, os.X_OK):
            raise Changed(f"there is no program {part}")
    return found


def run(words: Sequence[str | Path], seconds: float) -> str:
    """Runs a program within limits of time and memory, and gives what it printed."""

    def limit() -> None:
        resource.setrlimit(resource.RLIMIT_AS, (MEMORY, MEMORY))

    name = Path(words[0]).name
    try:
        ran = subprocess.run(
            words,
            stdin=subprocess.DEVNULL,
            stdout=subprocess.PIPE,
            stderr=subprocess.STDOUT,
            text=True,
            errors="replace",
            timeout=seconds,
            check=False,
            preexec_fn=limit,
        )
    except subprocess.TimeoutExpired:
        raise Failed(f"{name} has not ended within {seconds:g} seconds") from None
    if ran.returncode:
        raise Failed(f"{name} ended with status {ran.returncode}:\n{ran.stdout[-SHOWN:].rstrip()}")
    return ran.stdout
