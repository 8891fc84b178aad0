"""The LLVM module of the static library, which is kept when the library is proved and built."""
from __future__ import annotations

import sys
from pathlib import Path

from release import library
from release.files import Refused

from web.failed import Changed, Failed

# The beginning of LLVM's bitcode, without and with its wrapper.
BITCODE = (b"BC\xc0\xde", b"\xde\xc0\x17\x0b")


def module_of(top: Path) -> Path:
    """The module of the library as its sources are now."""
    kept = library.module(top)
    if not library.is_new(top, kept):
        print(f"build: {library.CRATE} is proved and built first", file=sys.stderr, flush=True)
        try:
            library.build(top)
        except Refused as why:
            raise Failed(str(why)) from None
    check(kept)
    return kept


def check(module: Path) -> None:
    if not module.exists():
        raise Changed("it hands its clang no LLVM module")
    with open(module, "rb") as file:
        if file.read(4) not in BITCODE:
            raise Changed("what it hands its clang is no LLVM module")
