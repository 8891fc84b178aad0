"""Runs one batch of jobs of a bundle, and prints each result as one line of JSON.

The bundle is the zip file that Python runs: `python3 bundle.pyz BATCH`. This module, too, stands on
the standard library of Python 3.8 alone, since it runs on the hosts that grade. """
from __future__ import annotations

import ctypes
import json
import os
import signal
import sys
import tempfile
import zipfile
from typing import Any, Dict, List, Optional, Tuple

from classroom.process.limits import Limits, Ran, run

PR_SET_PDEATHSIG = 1


def main(bundle: str, batch: str) -> int:
    """Runs the jobs of a batch in a folder of their own beside the bundle, which is removed at the
    end."""
    follow_parent()
    with zipfile.ZipFile(bundle) as members:
        common = json.loads(members.read("common.json"))
        limits = Limits(*common["limits"])
        jobs: List[Dict[str, Any]] = json.loads(members.read(f"batches/{batch}.json"))
        place = os.path.dirname(os.path.abspath(bundle))
        with tempfile.TemporaryDirectory(prefix="run-", dir=place) as folder:
            programs = {
                name: unpack(members, member, place_of(folder, name))
                for name, member in common["programs"].items()
            }
            rows = os.path.join(folder, "files")
            os.mkdir(rows)
            for name, member in common["files"]:
                unpack(members, member, os.path.join(rows, name))
            for job in jobs:
                for name, member in job["files"]:
                    unpack(members, member, os.path.join(rows, name))
                ran = run([programs[job["program"]], *job["words"]], limits, rows)
                sys.stdout.write(line(job["key"], ran))
                sys.stdout.flush()
                for name, _ in job["files"]:
                    os.unlink(os.path.join(rows, name))
    return 0


def place_of(folder: str, program: str) -> str:
    return os.path.join(folder, f"program-{program}")


def unpack(members: zipfile.ZipFile, member: str, path: str) -> str:
    with open(path, "wb") as file:
        file.write(members.read(member))
    os.chmod(path, 0o700)
    return path


def line(key: str, ran: Ran) -> str:
    """The result of a job; bytes that aren't UTF-8 as lone surrogates, which JSON escapes."""
    texts = [text.decode("utf-8", "surrogateescape") for text in (ran.stdout, ran.stderr)]
    return json.dumps([key, ran.status, *texts, ran.seconds, ran.passed]) + "\n"


def result(text: str) -> Optional[Tuple[str, Ran]]:
    """The key of a job and its result, from a line; None for any other line, as a shell's
    greeting."""
    try:
        key, status, out, err, seconds, passed = json.loads(text)
        texts = [part.encode("utf-8", "surrogateescape") for part in (out, err)]
        return str(key), Ran(int(status), texts[0], texts[1], float(seconds), str(passed))
    except (ValueError, TypeError, AttributeError):
        return None


def follow_parent() -> None:
    """Ends this process, with what it runs and its folder, where the one that started it ends."""
    for number in (signal.SIGTERM, signal.SIGHUP, signal.SIGINT):
        signal.signal(number, lambda *_: sys.exit(1))
    ctypes.CDLL(None).prctl(PR_SET_PDEATHSIG, signal.SIGTERM)
