"""The binary form of WebAssembly: numbers, and the sections of a module."""
from __future__ import annotations

from collections.abc import Iterator
from dataclasses import dataclass

from web.failed import Changed

HEAD = b"\0asm\1\0\0\0"
CUSTOM, TYPES, IMPORTS, FUNCTIONS, TABLES, MEMORIES, EXPORTS, ELEMENTS, CODE, DATA = (
    0,
    1,
    2,
    3,
    4,
    5,
    7,
    9,
    10,
    11,
)


@dataclass
class Reader:
    """Bytes that are read from the left."""

    content: bytes
    at: int = 0

    @property
    def has_more(self) -> bool:
        return self.at < len(self.content)

    def byte(self) -> int:
        self.at += 1
        return self.content[self.at - 1]

    def take(self, size: int) -> bytes:
        self.at += size
        return self.content[self.at - size : self.at]

    def number(self) -> int:
        """A number in groups of seven bits, the lowest first."""
        value = shift = 0
        while True:
            byte = self.byte()
            value |= (byte & 0x7F) << shift
            shift += 7
            if byte < 0x80:
                return value

    def signed(self) -> int:
        """The same, whose highest bit is a sign."""
        start = self.at
        value = self.number()
        bits = 7 * (self.at - start)
        return value - (1 << bits) if value >> (bits - 1) else value


def number(value: int) -> bytes:
    made = bytearray()
    while value >= 0x80:
        made.append(value & 0x7F | 0x80)
        value >>= 7
    made.append(value)
    return bytes(made)


def signed(value: int) -> bytes:
    made = bytearray()
    while not -0x40 <= value < 0x40:
        made.append(value & 0x7F | 0x80)
        value >>= 7
    made.append(value & 0x7F)
    return bytes(made)


def sections(content: bytes) -> Iterator[tuple[int, bytes]]:
    """The sections of a module: their kinds and contents."""
    if not content.startswith(HEAD):
        raise Changed("what is linked is no WebAssembly module")
    reader = Reader(content, len(HEAD))
    while reader.has_more:
        kind = reader.byte()
        yield kind, reader.take(reader.number())


def exported(content: bytes) -> set[str]:
    """The names that a module exports."""
    found = set()
    for kind, part in sections(content):
        if kind == EXPORTS:
            reader = Reader(part)
            for _ in range(reader.number()):
                found.add(reader.take(reader.number()).decode())
                reader.byte()
                reader.number()
    return found
