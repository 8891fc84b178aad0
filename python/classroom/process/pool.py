"""Runs many jobs at once: by threads on this machine, by GNU parallel on other ones.

A job is one call of a program over files, in a folder that has nothing else.
"""
from __future__ import annotations

import os
import signal
import subprocess
import tempfile
import threading
from collections.abc import Iterator, Mapping, Sequence
from concurrent.futures import FIRST_COMPLETED, Future, ThreadPoolExecutor, wait
from itertools import islice
from pathlib import Path
from queue import SimpleQueue

from classroom.process import hosts
from classroom.process import limits as limited
from classroom.base import log as tell
from classroom.base.files import fill
from classroom.process.jobs import Job, Means
from classroom.process.limits import Ran

__all__ = ["Job", "Means", "cores", "run"]


def run(
    jobs: Sequence[Job],
    programs: Mapping[str, Path],
    shared: Mapping[str, bytes],
    files: Mapping[str, bytes],
    means: Means,
    work: Path,
) -> Iterator[tuple[str, Ran]]:
    """The results of jobs, as they come; no result of a job that could not be run.

    `work` is a folder for what is needed meanwhile. The jobs end with this process, however it
    ends."""
    if not jobs:
        return
    with tell.progress(len(jobs), means.shows_progress) as step:
        for result in (hosts.run if means.hosts else here)(
            jobs, programs, shared, files, means, work
        ):
            step()
            yield result


def cores() -> int:
    """How many of this machine may be used."""
    return len(os.sched_getaffinity(0))


class Running:
    """The processes that run, which can be ended at once."""

    def __init__(self) -> None:
        self._lock = threading.Lock()
        self._processes: list[subprocess.Popen[bytes]] = []
        self._is_stopped = False

    def add(self, process: subprocess.Popen[bytes]) -> None:
        with self._lock:
            self._processes = [other for other in self._processes if other.returncode is None]
            self._processes.append(process)
            if self._is_stopped:
                end(process)

    def stop(self) -> None:
        """Ends all, and whatever is begun from now on."""
        with self._lock:
            self._is_stopped = True
            for process in self._processes:
                end(process)


def end(process: subprocess.Popen[bytes]) -> None:
    # The number of a process that was waited for may be another one's.
    if process.returncode is None:
        try:
            os.killpg(process.pid, signal.SIGKILL)
        except ProcessLookupError:
            pass


def here(
    jobs: Sequence[Job],
    programs: Mapping[str, Path],
    shared: Mapping[str, bytes],
    files: Mapping[str, bytes],
    means: Means,
    work: Path,
) -> Iterator[tuple[str, Ran]]:
    """The results of jobs on this machine; each thread has a folder with the shared files."""
    most = min(len(jobs), means.jobs or cores())
    running = Running()
    with tempfile.TemporaryDirectory(dir=work, prefix="run-") as name:
        folders: SimpleQueue[Path] = SimpleQueue()
        for number in range(most):
            folders.put(folder_of(Path(name), number, shared))

        def one(job: Job) -> tuple[str, Ran]:
            folder = folders.get()
            try:
                for file in job.files:
                    fill(folder / file, files[file])
                ran = limited.run(
                    [os.fspath(programs[job.program]), *job.words],
                    means.limits,
                    os.fspath(folder),
                    running.add,
                )
                for file in job.files:
                    (folder / file).unlink()
                return job.key, ran
            finally:
                folders.put(folder)

        threads = ThreadPoolExecutor(most)
        try:
            left, pending = iter(jobs), set[Future[tuple[str, Ran]]]()
            # Few results wait at a time.
            while pending := pending | {
                threads.submit(one, job) for job in islice(left, 2 * most - len(pending))
            }:
                done, pending = wait(pending, return_when=FIRST_COMPLETED)
                for future in done:
                    yield future.result()
        finally:
            threads.shutdown(wait=False, cancel_futures=True)
            running.stop()
            threads.shutdown()


def folder_of(above: Path, number: int, shared: Mapping[str, bytes]) -> Path:
    """A folder with the files that all jobs share; each file stands on the disk once."""
    folder = above / str(number)
    folder.mkdir()
    for name, text in shared.items():
        if number:
            os.link(above / "0" / name, folder / name)
        else:
            fill(folder / name, text)
            (folder / name).chmod(0o444)
    return folder
