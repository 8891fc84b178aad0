"""The shared object `libratest.so`: one call from the bytes of a request to the bytes of a
reply."""
from __future__ import annotations

import ctypes
import os
import struct
from collections.abc import Mapping, Sequence
from functools import cache
from pathlib import Path
from typing import NamedTuple

from ratest import installed

NAME = "libratest.so"
MALFORMED, NO_MEMORY = -1, -2
FIRST_ROOM = 1 << 16


class NoLibrary(OSError):
    """The shared object is not there."""


class Said(NamedTuple):
    """What a command ended with."""

    status: int
    out: str
    err: str


def path() -> Path:
    """The shared object: the one that $LIBRATEST names, else that of the wheel, of the repository
    or of the installation below a prefix."""
    named = os.environ.get("LIBRATEST")
    if named:
        return Path(named)
    built = installed.REPOSITORY / "out/library" / NAME
    found = installed.packed(NAME) or (built if built.is_file() else installed.below_prefix(NAME))
    if found is None:
        raise NoLibrary(f"there is no {NAME}: tools/library makes it, and $LIBRATEST may name it")
    return found


@cache
def loaded(at: Path) -> ctypes.CDLL:
    library = ctypes.CDLL(os.fspath(at))
    library.ratest_ask.argtypes = [
        ctypes.c_char_p,
        ctypes.c_size_t,
        ctypes.c_void_p,
        ctypes.c_size_t,
    ]
    library.ratest_ask.restype = ctypes.c_int64
    return library


def field(content: bytes) -> bytes:
    return struct.pack("<I", len(content)) + content


def framed(words: Sequence[str], files: Mapping[str, bytes]) -> bytes:
    """The request of a command over these files."""
    parts = [struct.pack("<II", len(words), len(files)), *(field(word.encode()) for word in words)]
    for name, content in files.items():
        parts += [field(name.encode()), field(content)]
    return b"".join(parts)


def read(reply: bytes) -> Said:
    """What a reply holds."""
    status, length = struct.unpack_from("<BI", reply)
    return Said(
        status,
        reply[5 : 5 + length].decode("utf-8", "replace"),
        reply[5 + length :].decode("utf-8", "replace"),
    )


def answered(request: bytes, at: Path) -> bytes:
    """The reply to a request. Other threads go on meanwhile, and may call too."""
    library, room = loaded(at), FIRST_ROOM
    while True:
        reply = ctypes.create_string_buffer(room)
        length = int(library.ratest_ask(request, len(request), reply, room))
        if length >= 0:
            return reply.raw[:length]
        if length == MALFORMED:
            raise ValueError("the request is malformed")
        if length == NO_MEMORY:
            raise MemoryError("out of memory")
        room = -length


def ask(words: Sequence[str], files: Mapping[str, bytes]) -> Said:
    """Runs a command over these files in this process."""
    return read(answered(framed(words, files), path()))
