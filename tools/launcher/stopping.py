"""Signals that end a call, and processes that end with it."""
from __future__ import annotations

import contextlib
import ctypes
import os
import shutil
import signal
import subprocess
import tempfile
import time
from collections.abc import Iterator
from types import FrameType

ENDING = (signal.SIGINT, signal.SIGTERM, signal.SIGHUP)
SECONDS_TO_END = 20
PR_SET_PDEATHSIG = 1


class Stopped(BaseException):
    """Signal `number` has ended the call."""

    def __init__(self, number: int) -> None:
        super().__init__(number)
        self.number = number


def heeded() -> list[signal.Signals]:
    """The ending signals that the caller has not set to be ignored, as nohup does."""
    return [number for number in ENDING if signal.getsignal(number) != signal.SIG_IGN]


@contextlib.contextmanager
def stoppable() -> Iterator[None]:
    """Within, an ending signal raises Stopped; once it has, further ones wait for what is tidied
    up."""
    numbers = heeded()

    def stop(number: int, _: FrameType | None) -> None:
        for it in numbers:
            signal.signal(it, signal.SIG_IGN)
        raise Stopped(number)

    for it in numbers:
        signal.signal(it, stop)
    try:
        yield
    finally:
        for it in numbers:
            signal.signal(it, signal.SIG_DFL)


@contextlib.contextmanager
def temporary_folder() -> Iterator[str]:
    """A folder that is removed at the end, also where a process that has been ended still writes to
    it."""
    folder = tempfile.mkdtemp(prefix="ratest-")
    try:
        yield folder
    finally:
        end = time.monotonic() + SECONDS_TO_END
        while os.path.exists(folder) and time.monotonic() < end:
            shutil.rmtree(folder, ignore_errors=True)
            if os.path.exists(folder):
                time.sleep(0.1)


def end_by(number: int) -> None:
    """Ends this process by the signal, as it would have ended the program."""
    with contextlib.suppress(OSError):
        signal.signal(number, signal.SIG_DFL)
    os.kill(os.getpid(), number)


def dies_with_parent(number: int) -> None:
    """Called in a child: the signal comes to it when its parent ends, however that ends."""
    ctypes.CDLL(None).prctl(PR_SET_PDEATHSIG, number)


def end_group(leader: subprocess.Popen[bytes]) -> None:
    """Ends a child that leads a process group, and what is left of the group, where the child has
    not ended."""
    if leader.poll() is not None:
        return
    # A process of the group that was being started may miss the first of these.
    for number in (signal.SIGTERM, signal.SIGKILL):
        with contextlib.suppress(ProcessLookupError):
            os.killpg(leader.pid, number)
        end = time.monotonic() + SECONDS_TO_END
        # The child is not waited for yet, so that no other group can have its number.
        while time.monotonic() < end and not os.waitid(
            os.P_PID, leader.pid, os.WEXITED | os.WNOWAIT | os.WNOHANG
        ):
            time.sleep(0.02)
    leader.wait()
