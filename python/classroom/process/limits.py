"""One run of a program within limits of time, memory and output.

It stands alone, on the standard library of Python 3.8, since it is sent to the hosts that grade.
"""
from __future__ import annotations

import os
import signal
import subprocess
import tempfile
import time
from functools import lru_cache
from typing import Callable, List, NamedTuple, Optional, Sequence

OUT_OF_MEMORY = 7  # the exit status, as `ratest.printed` has it, which is not sent to hosts
MEGABYTE = 1_000_000
ENVIRONMENT = {"PATH": os.defpath, "LC_ALL": "C.UTF-8"}


class Limits(NamedTuple):
    """What one run may take."""

    seconds: float = 60.0
    megabytes: int = 2000  # of address space; of a build without proofs what is resident
    output: float = 64  # megabytes in each of the two outputs


class Ran(NamedTuple):
    """How one run went."""

    status: int  # the exit status, or minus the signal that ended it
    stdout: bytes
    stderr: bytes
    seconds: float
    passed: str  # the limit that it passed: "time", "memory" or "output"; "" where it passed none


# Where the parent ended before the signal of its death was asked for, there is none: then nothing
# is run.
GUARD = '[ "$PPID" = "$1" ] || exit 1; shift; exec "$@"'


# In the file of a build without proofs, whose checks map terabytes of addresses.
CHECKED = b"__sanitizer_"
TICK = 0.05  # seconds between two looks at what is resident


@lru_cache(maxsize=8)
def _is_checked(path: str, changed: int, size: int) -> bool:
    with open(path, "rb") as file:
        return CHECKED in file.read()


def is_checked(path: str) -> bool:
    """Whether a program is a build with run-time checks in place of proofs."""
    known = os.stat(path)
    return _is_checked(path, known.st_mtime_ns, known.st_size)


def has_checks(words: Sequence[str]) -> bool:
    """Whether one of the programs of a call is such a build; each stands there with its path."""
    programs = [word for word in words if os.path.isfile(word) and os.access(word, os.X_OK)]
    return any(map(is_checked, programs))


def resident(pid: int) -> int:
    """The bytes that a process and its children hold in memory; 0 where it has ended."""
    try:
        with open(f"/proc/{pid}/statm", encoding="ascii") as file:
            held = int(file.read().split()[1]) * os.sysconf("SC_PAGE_SIZE")
        with open(f"/proc/{pid}/task/{pid}/children", encoding="ascii") as file:
            children = file.read().split()
    except (OSError, IndexError):
        return 0
    return held + sum(resident(int(child)) for child in children)


def wait(process: "subprocess.Popen[bytes]", limits: Limits, watches: bool) -> str:
    """Waits for the end of a process; gives the limit that it passed, "" where it ended. Where it
    is watched, so is what is resident."""
    end = time.monotonic() + limits.seconds
    while True:
        left = end - time.monotonic()
        try:
            process.wait(min(left, TICK) if watches else left)
            return ""
        except subprocess.TimeoutExpired:
            if left <= TICK or not watches:
                return "time"
            if resident(process.pid) > limits.megabytes * MEGABYTE:
                return "memory"


def bounded(limits: Limits, is_checked: bool = False) -> List[str]:
    """The words of a call before those of a program that gets these limits of memory and of
    files; where it is checked, none of memory."""
    return [
        "prlimit",
        *([] if is_checked else [f"--as={limits.megabytes * MEGABYTE}"]),
        f"--fsize={round(limits.output * MEGABYTE) + 1}",
        "--core=0",
        "--",
    ]


def run(
    words: Sequence[str],
    limits: Limits,
    folder: Optional[str] = None,
    started: Callable[["subprocess.Popen[bytes]"], None] = lambda process: None,
) -> Ran:
    """Runs a program in a folder, with nothing on its standard input and no environment but a PATH.

    The first word is the program's path. A program that doesn't start raises OSError. Where the
    caller ends, however it does, so does the program. `started` gets the process, whose group it
    leads."""
    if not os.access(words[0], os.X_OK):
        raise FileNotFoundError(2, "no program", words[0])
    most = round(limits.output * MEGABYTE)
    watches = has_checks(words)
    wrapped = [
        "setpriv",
        "--pdeathsig",
        "KILL",
        "sh",
        "-c",
        GUARD,
        "sh",
        str(os.getpid()),
        *bounded(limits, watches),
        *words,
    ]
    with tempfile.TemporaryFile() as out, tempfile.TemporaryFile() as err:
        begun = time.monotonic()
        process = subprocess.Popen(
            wrapped,
            stdin=subprocess.DEVNULL,
            stdout=out,
            stderr=err,
            cwd=folder,
            env=ENVIRONMENT,
            start_new_session=True,
        )
        passed = ""
        try:
            started(process)
            passed = wait(process, limits, watches)
        finally:
            if process.returncode is None:
                os.killpg(process.pid, signal.SIGKILL)
            status = process.wait()
        seconds = time.monotonic() - begun
        texts = []
        for file in (out, err):
            file.seek(0)
            texts.append(file.read(most + 1))
    if not passed and max(map(len, texts)) > most:
        passed = "output"
    elif not passed and status == OUT_OF_MEMORY:
        passed = "memory"
    return Ran(status, texts[0][:most], texts[1][:most], round(seconds, 3), passed)
