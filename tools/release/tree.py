"""The files that are installed, laid out below a folder."""
from __future__ import annotations

import gzip
import os
import re
import shutil
import subprocess
import sys
import tempfile
from pathlib import Path

from launcher import texts
from launcher.sources import Program
from release import library
from release.files import Refused, moment, put
from release.manual import manual_page

NAMES = ("ratest", "ratest_plus")
DOCUMENTS = ("README.md", "CHANGELOG.md", "LICENSE", "crates/rt_clause/LICENSE-circular_buffer")
FOLDERS = ("docs", "examples")
# The packages of python/, and the line of the script classroom that finds them.
PACKAGES = ("ratest", "classroom")
FOUND = 'os.path.join(os.path.dirname(os.path.realpath(__file__)), "python")'
SECONDS = 60
# A link to a file of the repository, without its anchor.
LINK = re.compile(r"\]\(([^)#:\s]+)[^)]*\)")


def lay_out(top: Path, to: Path, zsh: str = "site-functions", python: str = "python3.11") -> None:
    """Writes below the folder what stands below a prefix. `zsh` names the folder of its
    completions, and `python` the one in lib/ where Debian's Python looks."""
    for name in NAMES:
        lay_out_program(top, to, name)
    lay_out_library(top, to)
    lay_out_packages(top, to, python)
    lay_out_classroom(top, to, python)
    put((top / "tools/completions/_ratest").read_bytes(), to / f"share/zsh/{zsh}/_ratest")
    lay_out_documents(top, to)


def lay_out_program(top: Path, to: Path, name: str) -> None:
    """A proved program behind its front, the texts that the front prints, the manual page and
    completion."""
    program = Program(str(top), name, f"./{name}")
    if not program.is_built(program.proved):
        raise Refused(f"{name} is not proved and built here: ./{name} --build")
    put(Path(program.proved).read_bytes(), to / "lib/ratest" / name, executable=True)
    put((top / "tools/release/front").read_bytes(), to / "bin" / name, executable=True)
    for kind, text in texts.packed(str(top), name).items():
        put(text.encode(), to / f"share/ratest/{name}.{kind}")
    page = manual_page(
        name, texts.manual(str(top), name), (top / "VERSION").read_text().strip(), moment(top)
    )
    put(gzip.compress(page, mtime=0), to / f"share/man/man1/{name}.1.gz")
    put(
        (top / "tools/completions/ratest.bash").read_bytes(),
        to / "share/bash-completion/completions" / name,
    )


def lay_out_library(top: Path, to: Path) -> None:
    """The header, both libraries, and what pkg-config says of them."""
    with tempfile.TemporaryDirectory() as folder:
        made = library.make(top, Path(folder))
        for path in made:
            put(
                path.read_bytes(),
                to / ("include" if path.suffix == ".h" else "lib/ratest") / path.name,
            )
    text = (
        (top / "c/ratest.pc").read_text().replace("VERSION", (top / "VERSION").read_text().strip())
    )
    put(text.encode(), to / "share/pkgconfig/ratest.pc")


def lay_out_packages(top: Path, to: Path, python: str) -> None:
    """The packages of Python."""
    for package in PACKAGES:
        for path in sorted((top / "python" / package).rglob("*")):
            if path.is_file() and path.suffix != ".pyc":
                put(
                    path.read_bytes(),
                    to / "lib" / python / "dist-packages" / path.relative_to(top / "python"),
                )


def lay_out_classroom(top: Path, to: Path, python: str) -> None:
    """The script `classroom` and its manual page."""
    script = (top / "classroom").read_text()
    if script.count(FOUND) != 1:
        raise Refused("the script classroom does not find its package as it did")
    place = (
        "os.path.join(os.path.dirname(os.path.dirname(os.path.realpath(__file__))),"
        f' "lib/{python}/dist-packages")'
    )
    put(script.replace(FOUND, place).encode(), to / "bin/classroom", executable=True)
    said = subprocess.run(
        [sys.executable, top / "classroom", "--help"],
        capture_output=True,
        text=True,
        timeout=SECONDS,
        check=True,
        env={**os.environ, "COLUMNS": "80", "PYTHONDONTWRITEBYTECODE": "1"},
    ).stdout
    page = manual_page("classroom", said, (top / "VERSION").read_text().strip(), moment(top))
    put(gzip.compress(page, mtime=0), to / "share/man/man1/classroom.1.gz")


def lay_out_documents(top: Path, to: Path) -> None:
    """The documents and the examples, and the files to which they link, with the links as they
    are."""
    about = to / "share/doc/ratest"
    for document in DOCUMENTS:
        put((top / document).read_bytes(), about / Path(document).name)
    paths = examples_and_documents(top)
    for path in [*paths, *linked(top, [*paths, *(Path(it) for it in DOCUMENTS if "/" not in it)])]:
        put((top / path).read_bytes(), about / path, executable=os.access(top / path, os.X_OK))


def linked(top: Path, documents: list[Path]) -> list[Path]:
    """The further files to which documents link, and to which those link in turn."""
    found: set[Path] = set()
    left = list(documents)
    while left:
        document = left.pop()
        if document.suffix == ".md":
            for link in LINK.findall((top / document).read_text(encoding="utf-8")):
                path = Path(os.path.normpath(document.parent / link))
                if (top / path).is_file() and path not in documents and path not in found:
                    found.add(path)
                    left.append(path)
    return sorted(found)


def examples_and_documents(top: Path) -> list[Path]:
    """The files of docs/ and examples/ that git knows, or all of them where git tells none."""
    if (top / ".git").exists() and shutil.which("git"):
        ran = subprocess.run(["git", "-C", top, "ls-files", "-z", *FOLDERS], capture_output=True)
        if ran.returncode == 0:
            return [Path(os.fsdecode(name)) for name in ran.stdout.split(b"\0") if name]
    return sorted(
        path.relative_to(top)
        for folder in FOLDERS
        for path in (top / folder).rglob("*")
        if path.is_file()
    )
