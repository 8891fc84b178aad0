"""The toolchain: the line that the file TOOLCHAIN has, and the one that is here."""
from __future__ import annotations

import os
import shutil
import subprocess

SECONDS = 20


def wanted(top: str) -> str:
    """The line of `rt version` that the repository is written for."""
    try:
        with open(os.path.join(top, "TOOLCHAIN"), encoding="utf-8") as file:
            return file.read().strip() or "not named in TOOLCHAIN"
    except OSError:
        return "not named: the file TOOLCHAIN is missing"


def found() -> str | None:
    """The line that `rt version` prints, or None where there is no command rt."""
    if not shutil.which("rt"):
        return None
    try:
        ran = subprocess.run(
            ["rt", "version"],
            stdin=subprocess.DEVNULL,
            capture_output=True,
            text=True,
            errors="replace",
            timeout=SECONDS,
        )
    except (OSError, subprocess.TimeoutExpired):
        return "rt version gives no answer"
    return (ran.stdout.strip() or "rt version prints nothing").splitlines()[0]


def missing(top: str) -> str:
    """What to tell where there is no command rt."""
    return (
        "there is no command rt on the PATH, which builds the program. It comes with the"
        f" toolchain\n  {wanted(top)}\nfor Linux on x86-64, a folder that whoever gave you this"
        " repository has: put a link to its bin/rt into a\nfolder of the PATH. It needs Python 3.8"
        " or later; `rt selftest` shows whether it works."
    )


def other(top: str) -> str | None:
    """What to tell where the toolchain here is another than the one that TOOLCHAIN names."""
    here, named = found(), wanted(top)
    if here is None or here == named:
        return None
    return (
        f"the toolchain here is '{here}', and TOOLCHAIN names '{named}': a build with another may"
        " fail"
    )
