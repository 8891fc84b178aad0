"""The proved build: `rt ci` over the program's crates alone, in a folder of their own, and what it
took."""
from __future__ import annotations

import json
import os
import re
import shutil
import signal
import subprocess
import time

from launcher import stopping
from launcher.sources import Program, crate_of

PARTS = ("src", "specs", "proofs", "stdin", "stdout", "args", "status", "data")
KEPT = re.compile(r"rt: (\S+) is kept: ")
PROVED = re.compile(r"rt: (\S+) proved$")


def make(program: Program, folder: str, log: str) -> bool:
    """Proves and builds the program as `folder`/program; whether it could be. `log` gets what rt
    prints.

    `rt ci` proves side by side, first what most stands on, takes what an earlier run on this
    machine proved, and builds and runs the program."""
    top, temporary = os.path.join(folder, "repository"), os.path.join(folder, "temporary")
    crates = copy_crates(program, top)
    os.mkdir(temporary)
    # As root, rt runs the program as nobody in a temporary folder, of which an interrupted rt
    # leaves some.
    for path in (folder, temporary):
        os.chmod(path, 0o711)
    started, anew = time.monotonic(), 0
    rt = subprocess.Popen(
        ["rt", "ci"],
        cwd=top,
        env={**os.environ, "TMPDIR": temporary},
        stdin=subprocess.DEVNULL,
        stdout=subprocess.PIPE,
        stderr=subprocess.STDOUT,
        start_new_session=True,
        preexec_fn=lambda: stopping.dies_with_parent(signal.SIGTERM),
    )
    assert rt.stdout
    try:
        with open(log, "wb") as to:
            done = 0
            for said in rt.stdout:
                to.write(said)
                line = said.decode("utf-8", "replace").rstrip("\n")
                kept, proved = KEPT.match(line), PROVED.match(line)
                if kept or proved:
                    done += 1
                    anew += bool(proved)
                if kept:
                    program.say(f"{kept[1]} was proved before ({done} of {crates})")
                elif proved:
                    program.say(f"{proved[1]} is proved ({done} of {crates})")
        if rt.wait() != 0:
            return False
    finally:
        stopping.end_group(rt)
    built = os.path.join(top, "crates", program.name, "out", program.name)
    if not os.access(built, os.X_OK):
        return False
    os.rename(built, os.path.join(folder, "program"))
    remember(program, time.monotonic() - started, anew, crates)
    return True


def copy_crates(program: Program, to_top: str) -> int:
    """Copies the crates below the program, which is the only one on top, with the run that it is
    compared with; gives their number."""
    lines = program.crate_lines()
    os.mkdir(to_top)
    with open(os.path.join(to_top, "crates.txt"), "w", encoding="utf-8") as file:
        file.writelines(lines)
    shutil.copy(os.path.join(program.top, "HANDLES"), to_top)
    for line in lines:
        crate = crate_of(line)
        to = os.path.join(to_top, "crates", crate)
        os.makedirs(to)
        for part in PARTS:
            path = os.path.join(program.top, "crates", crate, part)
            if os.path.isdir(path):
                shutil.copytree(path, os.path.join(to, part))
            elif os.path.exists(path):
                shutil.copy(path, to)
    return len(lines)


def record(program: Program) -> str:
    """The file that keeps what the last proved build took on this machine."""
    cache = os.environ.get("XDG_CACHE_HOME") or os.path.expanduser("~/.cache")
    return os.path.join(cache, "ratest", f"build-{program.name}.json")


def remember(program: Program, seconds: float, anew: int, crates: int) -> None:
    path = record(program)
    try:
        os.makedirs(os.path.dirname(path), exist_ok=True)
        with open(f"{path}.new", "w", encoding="utf-8") as file:
            json.dump({"seconds": round(seconds), "anew": anew, "crates": crates}, file)
        os.replace(f"{path}.new", path)
    except OSError:
        # It is only for telling a time.
        pass


def expected(program: Program) -> str:
    """The time that a proved build takes, as far as it is known."""
    try:
        with open(record(program), encoding="utf-8") as file:
            last = json.load(file)
        seconds, anew, crates = (int(last[name]) for name in ("seconds", "anew", "crates"))
    except (OSError, ValueError, KeyError, TypeError):
        return "in about half an hour on four cores"
    took = f"{seconds} seconds" if seconds < 120 else f"{round(seconds / 60)} minutes"
    return (
        f"which last took {took} on this machine, where {anew} of {crates} crates had to be proved"
    )
