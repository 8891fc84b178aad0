"""The words around a call of `ratest`: it gets no environment and no network, and ends with this
process."""
from __future__ import annotations

import os
import subprocess
from pathlib import Path

from classroom.base.errors import tool


def around(program: Path, has_network: bool) -> list[str]:
    """The words of a call before those of `ratest` itself.

    The network is taken away by `unshare` in a namespace of its own, which has no more than a
    loopback that is down."""
    alone = [] if has_network else [*namespace(), "--"]
    return [
        *alone,
        tool("setpriv", "util-linux"),
        "--pdeathsig",
        "KILL",
        tool("env", "coreutils"),
        "-i",
        os.fspath(program),
    ]


def namespace() -> list[str]:
    return [tool("unshare", "util-linux"), "--map-root-user", "--net"]


def can_be_alone() -> bool:
    """Whether this machine lets a process give up its network."""
    try:
        ran = subprocess.run(
            [*namespace(), "true"],
            stdin=subprocess.DEVNULL,
            capture_output=True,
            timeout=20,
            check=False,
        )
    except (OSError, subprocess.TimeoutExpired):
        return False
    return ran.returncode == 0
