"""Files that are laid out and copied."""
from __future__ import annotations

import os
import shutil
import stat
import subprocess
from pathlib import Path


class Refused(Exception):
    """Why nothing can be installed or packed."""


def put(content: bytes, path: Path, executable: bool = False) -> None:
    path.parent.mkdir(parents=True, exist_ok=True)
    path.write_bytes(content)
    path.chmod(0o755 if executable else 0o644)


def moment(top: Path) -> int:
    """The time of the commit, which stands for the time of all that is made of it; of the file
    VERSION where git does not tell it."""
    try:
        ran = subprocess.run(
            ["git", "-C", top, "log", "-1", "--format=%ct"], capture_output=True, text=True
        )
        return int(ran.stdout)
    except (OSError, ValueError):
        return int((top / "VERSION").stat().st_mtime)


def files_below(folder: Path) -> list[Path]:
    """The files below the folder, relative to it and in order."""
    return sorted(path.relative_to(folder) for path in folder.rglob("*") if not path.is_dir())


def settle(folder: Path, seconds: int) -> None:
    """Gives all below the folder this time and plain permissions, so that what is packed of it
    depends on nothing else."""
    for path in [*folder.rglob("*"), folder]:
        mode = 0o755 if path.is_dir() or path.stat().st_mode & stat.S_IXUSR else 0o644
        path.chmod(mode)
        os.utime(path, (seconds, seconds))


def copy(content: Path, path: Path) -> None:
    """Copies a file to its place, whole or not at all."""
    partly = path.with_name(f".{path.name}.{os.getpid()}")
    try:
        shutil.copy(content, partly)
        os.replace(partly, path)
    finally:
        partly.unlink(missing_ok=True)
