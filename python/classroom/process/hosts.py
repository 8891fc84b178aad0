"""Runs many jobs on the hosts of an `--sshloginfile` of GNU parallel.

All that the jobs need is put into one bundle, a zip file that Python runs (see `classroom.worker`):
the programs, the files that all jobs share, and those of each job. GNU parallel starts `python3
bundle.pyz BATCH` for batches of jobs; hosts get the bundle by its `--basefile` and lose it by its
`--cleanup`. So no name of a file ever stands in a command line, and each result is one line of JSON
on standard output, told by the key of its job. """
from __future__ import annotations

import hashlib
import json
import logging
import os
import socket
import subprocess
import sys
import tempfile
import zipfile
from collections.abc import Iterator, Mapping, Sequence
from concurrent.futures import ThreadPoolExecutor
from pathlib import Path

from classroom.process import lifeline as guard
from classroom.process import limits as limited
from classroom.process import remote as worker
from classroom.base.errors import Fault, shown, tool
from classroom.process.jobs import Job, Means
from classroom.process.limits import Limits, Ran

MOST_IN_BATCH = 64
# It ends with GNU parallel, and then the worker on the host does at its next line.
SSH = "setpriv --pdeathsig KILL ssh -o BatchMode=yes -o ConnectTimeout=10"
MAIN = "import sys\nfrom classroom.process.remote import main\nsys.exit(main(*sys.argv))\n"
log = logging.getLogger(__name__)


def run(
    jobs: Sequence[Job],
    programs: Mapping[str, Path],
    shared: Mapping[str, bytes],
    files: Mapping[str, bytes],
    means: Means,
    work: Path,
) -> Iterator[tuple[str, Ran]]:
    """As `parallel.run`."""
    assert means.hosts
    parallel = gnu_parallel()
    hosts = reached(parallel, means.hosts, work)
    batches = batches_of(jobs, means, len(hosts))
    write_bundle(work / "bundle.pyz", batches, programs, shared, files, means.limits)
    (work / "batches").write_text("".join(f"{number}\n" for number in range(len(batches))))
    words = [
        *parallel,
        "--line-buffer",
        "--jobs",
        str(means.jobs or "100%"),
        "--arg-file",
        "batches",
        "--sshloginfile",
        "hosts",
        "--ssh",
        SSH,
        "--basefile",
        "./bundle.pyz",
        "--workdir",
        place_on_hosts(work),
        "--cleanup",
        "--retries",
        "3",
        "exec python3 bundle.pyz {}",
    ]
    try:
        yield from lines(words, work)
    finally:
        sweep(parallel, place_on_hosts(work), work)


def gnu_parallel() -> list[str]:
    """The words that begin a call of GNU parallel, without anybody's own settings."""
    path = tool("parallel", "parallel")
    version = subprocess.run(
        [path, "--version"], stdin=subprocess.DEVNULL, capture_output=True, check=False
    )
    if not version.stdout.startswith(b"GNU parallel"):
        raise Fault(f"{path} is not GNU parallel: apt-get install parallel")
    return [path, "--plain", "--will-cite"]


def environment(work: Path) -> dict[str, str]:
    return {**os.environ, "SHELL": "/bin/sh", "TMPDIR": os.fspath(work.absolute())}


def lines(words: Sequence[str], work: Path) -> Iterator[tuple[str, Ran]]:
    with tempfile.TemporaryFile(dir=work) as errors:
        process = subprocess.Popen(
            [sys.executable, "-S", "-P", guard.__file__, str(os.getpid()), *words],
            stdin=subprocess.DEVNULL,
            stdout=subprocess.PIPE,
            stderr=errors,
            cwd=work,
            env=environment(work),
            encoding="ascii",
            errors="replace",
        )
        assert process.stdout
        try:
            for text in process.stdout:
                found = worker.result(text)
                if found:
                    yield found
            process.wait()
        finally:
            if process.poll() is None:
                stop(process)
        if process.returncode:
            errors.seek(0)
            last = errors.read().decode("utf-8", "replace").strip().splitlines()[-1:]
            log.warning("parallel: %s", shown(*last) if last else f"status {process.returncode}")


def stop(process: subprocess.Popen[str]) -> None:
    """Ends GNU parallel, and with it its jobs, which follow their parent."""
    process.terminate()
    process.wait()


def batches_of(jobs: Sequence[Job], means: Means, hosts: int) -> list[Sequence[Job]]:
    """The jobs in batches, neighbours in different ones, since these take alike long.

    The start of a batch costs as much as a hundred short runs; but no core may wait for one that
    has too many."""
    cores = (means.jobs or os.cpu_count() or 1) * hosts
    size = min(MOST_IN_BATCH, 1 + len(jobs) // (2 * cores))
    count = -(-len(jobs) // size)
    return [jobs[start::count] for start in range(count)]


def write_bundle(
    path: Path,
    batches: Sequence[Sequence[Job]],
    programs: Mapping[str, Path],
    shared: Mapping[str, bytes],
    files: Mapping[str, bytes],
    limits: Limits,
) -> None:
    """Writes all that the jobs need."""
    with zipfile.ZipFile(path, "w", zipfile.ZIP_DEFLATED, compresslevel=1) as bundle:
        bundle.writestr("__main__.py", MAIN)
        bundle.writestr("classroom/__init__.py", "")
        bundle.writestr("classroom/process/__init__.py", "")
        for module in (limited, worker):
            bundle.write(str(module.__file__), f"{module.__name__.replace('.', '/')}.py")
        for name, program in programs.items():
            bundle.write(program, f"programs/{name}")
        common = {
            "limits": limits,
            "programs": {name: f"programs/{name}" for name in programs},
            "files": [(name, f"shared/{number}") for number, name in enumerate(shared)],
        }
        for number, content in enumerate(shared.values()):
            bundle.writestr(f"shared/{number}", content)
        members = {}
        for number, (name, content) in enumerate(files.items()):
            members[name] = f"files/{number}"
            bundle.writestr(members[name], content)
        bundle.writestr("common.json", json.dumps(common))
        for number, batch in enumerate(batches):
            bundle.writestr(
                f"batches/{number}.json",
                json.dumps(
                    [
                        {
                            "key": job.key,
                            "program": job.program,
                            "words": job.words,
                            "files": [(name, members[name]) for name in job.files],
                        }
                        for job in batch
                    ]
                ),
            )


def reached(parallel: Sequence[str], path: Path, work: Path) -> list[str]:
    """The lines of an --sshloginfile whose hosts answer and have what is needed; the others are
    told.

    They are written to the file `hosts` in the folder.
    """
    for program, package in (("ssh", "openssh-client"), ("rsync", "rsync")):
        tool(program, package)
    try:
        told = [line.strip() for line in path.read_text(encoding="utf-8").splitlines()]
    except (OSError, UnicodeDecodeError) as why:
        raise Fault(f"{shown(str(path))}: can't be read as a list of hosts: {why}") from None
    hosts = [line for line in told if line and not line.startswith("#")]
    with ThreadPoolExecutor() as threads:
        faults = list(threads.map(lambda host: fault_of(parallel, host, work), hosts))
    for host, fault in zip(hosts, faults):
        if fault:
            log.warning("the host %s is left out: %s", shown(host), shown(fault))
    good = [host for host, fault in zip(hosts, faults) if not fault]
    if not good:
        raise Fault(f"{shown(str(path))}: no host answers")
    (work / "hosts").write_text("".join(f"{host}\n" for host in good), encoding="utf-8")
    return good


def place_on_hosts(work: Path) -> str:
    """A folder in the home of the hosts, the same for each run: so what a run left there that was
    killed goes with the next one."""
    whole = f"{socket.gethostname()}:{work.resolve().parent}"
    return f".classroom-{hashlib.sha256(os.fsencode(whole)).hexdigest()[:16]}"


def fault_of(parallel: Sequence[str], host: str, work: Path) -> str:
    """Why a host can't be used; empty where it can."""
    try:
        ran = subprocess.run(
            [
                *parallel,
                "--nonall",
                "--ssh",
                SSH,
                "--sshlogin",
                host,
                (
                    "for program in python3 rsync prlimit setpriv; do command -v $program"
                    " >/dev/null || echo $program; done"
                ),
            ],
            stdin=subprocess.DEVNULL,
            capture_output=True,
            encoding="utf-8",
            errors="replace",
            timeout=40,
            env=environment(work),
            check=False,
        )
    except subprocess.TimeoutExpired:
        return "no answer within 40 seconds"
    if ran.returncode:
        return (ran.stderr.strip().splitlines() or [f"status {ran.returncode}"])[-1]
    return f"no program {', '.join(ran.stdout.split())}" if ran.stdout else ""


def sweep(parallel: Sequence[str], place: str, work: Path) -> None:
    """Removes the folder on the hosts; GNU parallel removes what it copied there and leaves the
    folder."""
    try:
        subprocess.run(
            [*parallel, "--nonall", "--sshloginfile", "hosts", "--ssh", SSH, f"rm -rf {place}"],
            cwd=work,
            stdin=subprocess.DEVNULL,
            capture_output=True,
            env=environment(work),
            check=True,
            timeout=60,
        )
    except (subprocess.TimeoutExpired, subprocess.CalledProcessError):
        log.warning("a host did not answer in the end; ~/%s may be left on it", place)
