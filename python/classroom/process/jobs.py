"""Calls of programs, many at once: what a job is, and with what it is run."""
from __future__ import annotations

from dataclasses import dataclass
from pathlib import Path

from classroom.process.limits import Limits


@dataclass(frozen=True)
class Job:
    """One call of a program, in a folder that has the shared files and its own ones."""

    key: str  # by which its result is told; each job has another
    words: tuple[str, ...]  # of the call; paths are names of files, `.` is the folder
    files: tuple[str, ...]  # the names of its own files, as `files` of `run` has them
    program: str = "ratest"


@dataclass(frozen=True)
class Means:
    """With what jobs are run."""

    limits: Limits = Limits()
    jobs: int | None = None  # at once, on each machine; as many as it has cores where it is None
    hosts: Path | None = None  # an --sshloginfile of GNU parallel
    shows_progress: bool = False  # on standard error
