"""A copy of the toolchain's compiler, by links, whose clang keeps the LLVM module that it is given.

The toolchain compiles a library by an LLVM module, which it hands to its clang. The page without a
server is made of that module. """
from __future__ import annotations

from pathlib import Path

CLANG = """#!/usr/bin/python3 -IS
import os, shutil, sys
words = sys.argv[1:]
for at, word in enumerate(words):
    if words[at - 1:at] == ["ir"] and "-c" in words:
        shutil.copyfile(word, {module!r})
os.execv({clang!r}, ["clang", *words])
"""


def keeping(toolchain: Path, to: Path, module: Path) -> Path:
    """The copy of the folder with `bin/clang`; the module goes to this path."""
    link_all(toolchain, to, "bin")
    link_all(toolchain / "bin", to / "bin", "clang")
    clang = to / "bin/clang"
    clang.write_text(
        CLANG.format(module=str(module), clang=str(toolchain / "bin/clang")), encoding="utf-8"
    )
    clang.chmod(0o755)
    return to


def link_all(folder: Path, to: Path, but: str) -> None:
    to.mkdir()
    for path in folder.iterdir():
        if path.name != but:
            (to / path.name).symlink_to(path)
