"""Calls of a program with limits of time, memory and stack."""
from __future__ import annotations

import resource
import subprocess
import time
from dataclasses import dataclass
from pathlib import Path
from typing import Sequence

# Of a processor, so that what else the machine does is no failure; and of the clock.
SECONDS = 20
WAITED = 300
MEMORY = 2_000_000 << 10
STACK = 8 << 20


@dataclass(frozen=True)
class Ended:
    # 124 where the time was over, as timeout(1) has it.
    status: int
    out: bytes
    err: bytes
    seconds: float


def limits() -> None:
    resource.setrlimit(resource.RLIMIT_AS, (MEMORY, MEMORY))
    resource.setrlimit(resource.RLIMIT_STACK, (STACK, STACK))
    resource.setrlimit(resource.RLIMIT_CPU, (SECONDS, SECONDS))


def ended(words: Sequence[str | Path]) -> Ended:
    start = time.monotonic()
    try:
        done = subprocess.run(
            words,
            stdin=subprocess.DEVNULL,
            capture_output=True,
            timeout=WAITED,
            check=False,
            preexec_fn=limits,
        )
    except subprocess.TimeoutExpired:
        return Ended(124, b"", b"", WAITED)
    return Ended(done.returncode, done.stdout, done.stderr, time.monotonic() - start)
