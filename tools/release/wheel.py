"""The wheel: both packages of Python with the proved programs and the shared object in them, for
pip."""
from __future__ import annotations

import os
import shutil
import subprocess
import sys
import tempfile
from pathlib import Path

from launcher import texts
from launcher.sources import Program
from release import library
from release.files import Refused, copy, files_below, moment, put, settle
from release.tree import NAMES, PACKAGES

SECONDS = 120
# Linux on x86-64, any Python: the programs are no modules of Python.
TAGS = "[bdist_wheel]\npython_tag = py3\nplat_name = linux_x86_64\n"
BUILD = "import sys; from setuptools import build_meta; print(build_meta.build_wheel(sys.argv[1]))"


def name(version: str) -> str:
    return f"ratest-{version}-py3-none-linux_x86_64.whl"


def write_wheel(top: Path, path: Path) -> None:
    """Writes the wheel; from one commit it is the same, byte for byte."""
    with tempfile.TemporaryDirectory() as folder:
        source, made = Path(folder) / "source", Path(folder) / "made"
        lay_out(top, source)
        seconds = moment(top)
        settle(source, seconds)
        ran = subprocess.run(
            [sys.executable, "-c", BUILD, made],
            cwd=source,
            capture_output=True,
            text=True,
            timeout=SECONDS,
            env={**os.environ, "SOURCE_DATE_EPOCH": str(seconds)},
            stdin=subprocess.DEVNULL,
            umask=0o022,
            check=False,
        )
        if "No module named" in ran.stderr:
            raise Refused(
                "setuptools or wheel, which make the wheel, are not there: apt-get install"
                " python3-setuptools python3-wheel"
            )
        found = sorted(made.glob("*.whl")) if made.is_dir() else []
        if ran.returncode or len(found) != 1:
            raise Refused(
                "the wheel could not be made:"
                f" {ran.stderr.strip().splitlines()[-1:] or [it.name for it in found]}"
            )
        if found[0].name != path.name:
            raise Refused(
                f"python/ratest/installed.py has another version than VERSION: {found[0].name}"
            )
        copy(found[0], path)


def lay_out(top: Path, to: Path) -> None:
    """The sources of the wheel: the packages, and in `ratest/programs` what is not Python."""
    for package in PACKAGES:
        for path in files_below(top / "python" / package):
            if path.suffix != ".pyc":
                put((top / "python" / package / path).read_bytes(), to / package / path)
    programs = to / "ratest/programs"
    for program in NAMES:
        proved = Program(str(top), program, f"./{program}")
        if not proved.is_built(proved.proved):
            raise Refused(f"{program} is not proved and built here: ./{program} --build")
        put(Path(proved.proved).read_bytes(), programs / program, executable=True)
        for kind, text in texts.packed(str(top), program).items():
            put(text.encode(), programs / f"{program}.{kind}")
    with tempfile.TemporaryDirectory() as folder:
        for path in library.make(top, Path(folder)):
            if path.name == library.SHARED:
                shutil.copy(path, programs / path.name)
    put((top / "python/pyproject.toml").read_bytes(), to / "pyproject.toml")
    put((top / "LICENSE").read_bytes(), to / "LICENSE")
    put(TAGS.encode(), to / "setup.cfg")
