"""The library for C: a shared object and a static library that needs nothing else, of the proved
archive."""
from __future__ import annotations

import os
import shutil
import subprocess
import tempfile
from pathlib import Path

from launcher.prove import copy_crates
from launcher.sources import Program, crate_of
from release.files import Refused, copy
from release.keeping import keeping

CRATE = "ratest_c"
SHARED, STATIC, HEADER = "libratest.so", "libratest.a", "ratest.h"
SECONDS = 120


def archive(top: Path) -> Path:
    """Where `rt lib` leaves the proved archive."""
    return top / "crates" / CRATE / "out" / f"lib{CRATE}.a"


def module(top: Path) -> Path:
    """Where the LLVM module is left of which the archive is compiled."""
    return archive(top).with_name(f"{CRATE}.bc")


def is_built(top: Path) -> bool:
    """Whether the proved archive is there and no source is newer."""
    return is_new(top, archive(top))


def is_new(top: Path, path: Path) -> bool:
    """Whether a file is there and no source of the crate is newer."""
    try:
        made = path.stat().st_mtime_ns
        return all(os.stat(it).st_mtime_ns <= made for it in Program(str(top), CRATE, "").sources())
    except OSError:
        return False


def build(top: Path) -> None:
    """Proves and builds the archive: `rt ci` over the crates that it needs, in a folder of their
    own, which takes what an earlier run on this machine proved, and then the toolchain's compiler
    over what that made."""
    if not shutil.which("rt"):
        raise Refused("there is no command rt on the PATH; README.md says where it comes from")
    program = Program(str(top), CRATE, "")
    with tempfile.TemporaryDirectory() as folder:
        made, log = Path(folder) / "repository", top / "out" / f"{CRATE}.log"
        log.parent.mkdir(exist_ok=True)
        copy_crates(program, str(made))
        kept = Path(folder) / "module.bc"
        toolchain = keeping(kit() / "toolchain", Path(folder) / "toolchain", kept)
        with open(log, "wb") as said:
            for words, where in (
                (["rt", "ci"], made),
                (compiler(program, made, toolchain), made / "crates" / CRATE),
            ):
                ran = subprocess.run(
                    words,
                    cwd=where,
                    stdin=subprocess.DEVNULL,
                    stdout=said,
                    stderr=said,
                    check=False,
                )
                if ran.returncode:
                    raise Refused(f"{CRATE} could not be proved and built: {log} says why")
        archive(top).parent.mkdir(exist_ok=True)
        copy(Path(folder) / "archive", archive(top))
        if kept.exists():
            copy(kept, module(top))
    log.unlink()


def compiler(program: Program, made: Path, toolchain: Path) -> list[str]:
    """The command that compiles the crate to `archive`, beside the folder of the crates that `rt
    ci` proved."""
    own, lines = kit(), {crate_of(line): line for line in program.crate_lines()}
    used = lines.pop(CRATE).split(":")[1].split()
    words = [
        f"{own}/bin/rattle",
        "build",
        "--crate-name",
        CRATE,
        "src/lib.rt",
        "--crate-type",
        "staticlib",
        "--extern",
        f"std={own}/rlibs/std.rlib",
        "-L",
        f"dependency={own}/rlibs",
    ]
    for name in lines:
        folder = made / "crates" / name / "out/rlib"
        words += [
            *(["--extern", f"{name}={folder / name}.rlib"] if name in used else []),
            "-L",
            f"dependency={folder}",
        ]
    return [
        *words,
        "--antt-project",
        f"{own}/rattle/logic/antt-project.json",
        "--logic-built",
        f"{own}/logic_built",
        "--toolchain",
        str(toolchain),
        "-o",
        str(made.parent / "archive"),
    ]


def kit() -> Path:
    """The folder of the toolchain."""
    ran = subprocess.run(["rt", "doc"], capture_output=True, text=True, timeout=SECONDS, check=True)
    return Path(ran.stdout.strip()).parent


def heap() -> Path:
    """The toolchain's archive by which a program's malloc, realloc and free are called."""
    path = kit() / "c/liblibc_c.a"
    if not path.is_file():
        raise Refused(f"the toolchain has no {path}")
    return path


def make(top: Path, to: Path) -> list[Path]:
    """Writes the header and both libraries into the folder; gives their paths."""
    if not is_built(top):
        raise Refused(f"{CRATE} is not proved and built here: tools/library")
    for tool in ("cc", "ar"):
        if not shutil.which(tool):
            raise Refused(f"there is no program {tool}: apt-get install gcc binutils")
    with tempfile.TemporaryDirectory() as folder:
        made = Path(folder)
        copy(top / "c" / HEADER, made / HEADER)
        join(made, made / STATIC, [archive(top), heap()])
        link(top / "c/libratest.map", made / STATIC, made / SHARED)
        to.mkdir(parents=True, exist_ok=True)
        for name in (HEADER, STATIC, SHARED):
            copy(made / name, to / name)
    return [to / name for name in (HEADER, STATIC, SHARED)]


def join(work: Path, path: Path, archives: list[Path]) -> None:
    """One archive of several, the same bytes each time."""
    members = []
    for number, it in enumerate(archives):
        place = work / str(number)
        place.mkdir()
        subprocess.run(["ar", "x", it.resolve()], cwd=place, timeout=SECONDS, check=True)
        members += sorted(place.iterdir())
    subprocess.run(["ar", "rcsD", path, *members], timeout=SECONDS, check=True)


def link(exported: Path, static: Path, path: Path) -> None:
    """The shared object of the archive, which exports the one call alone."""
    subprocess.run(
        [
            "cc",
            "-shared",
            "-o",
            path,
            "-Wl,--whole-archive",
            static,
            "-Wl,--no-whole-archive",
            "-Wl,-z,defs",
            "-Wl,-soname,libratest.so",
            "-Wl,--build-id=none",
            "-Wl,--gc-sections",
            f"-Wl,--version-script={exported}",
        ],
        timeout=SECONDS,
        check=True,
    )
