"""A WebAssembly module with a memory and a table of 64 bits as one with 32 bits, which every
browser runs.

Addresses stay numbers of 64 bits, and each is cut to 32 where the memory or the table takes it. The
memory has at most 4 GiB then, so that no address of a block has a bit that is lost. A module of any
other form than the linker gives today is refused. (Debian 12 has binaryen 108, whose pass for this
refuses a table of 64 bits.) """
from __future__ import annotations

from collections.abc import Callable

from web.binary import (
    CODE,
    CUSTOM,
    DATA,
    ELEMENTS,
    FUNCTIONS,
    HEAD,
    MEMORIES,
    TABLES,
    TYPES,
    Reader,
    number,
    sections,
    signed,
)
from web.failed import Changed

IS_WIDE = 4
MOST_PAGES = 1 << 16
I32, I64, F32, F64 = 0x7F, 0x7E, 0x7D, 0x7C
GET, SET = b"\x20", b"\x21"
WRAP, EXTEND, EXTEND_SIGN = b"\xa7", b"\xad", b"\xac"
END, BR_TABLE, CALL_INDIRECT, SELECT_OF, I32_CONST, I64_CONST, PREFIX = (
    0x0B,
    0x0E,
    0x11,
    0x1C,
    0x41,
    0x42,
    0xFC,
)
LOADS, STORES, SIZE, GROW = range(0x28, 0x36), range(0x36, 0x3F), 0x3F, 0x40
# The types of what the stores take, by their opcodes.
STORED = dict(zip(STORES, (I32, I64, F32, F64, I32, I32, I64, I64, I64)))
# Those without immediates; with one number; with one signed number; with as many bytes.
BARE = {0x00, 0x01, 0x05, END, 0x0F, 0x1A, 0x1B, 0xD1, *range(0x45, 0xC5)}
NUMBERED = {0x0C, 0x0D, 0x10, *range(0x20, 0x25), 0xD2}
SIGNED = {0x02, 0x03, 0x04, I32_CONST, I64_CONST, 0xD0}
FIXED = {0x43: 4, 0x44: 8}
COPY, FILL = 10, 11


class Locals:
    """The locals of a function, and those that are added behind them."""

    def __init__(self, count: int) -> None:
        self.count = count
        self.added: list[int] = []

    def of(self, kind: int, which: int = 0) -> bytes:
        """The number of the added local of a type; `which` is 0, or 1 for a second one."""
        places = [at for at, it in enumerate(self.added) if it == kind]
        if which == len(places):
            places.append(len(self.added))
            self.added.append(kind)
        return number(self.count + places[which])


def narrowed(content: bytes) -> bytes:
    """The module with a memory and a table of 32 bits."""
    parameters: list[int] = []
    functions: list[int] = []
    made = [HEAD]
    for kind, part in sections(content):
        reader = Reader(part)
        if kind == CUSTOM:
            continue
        if kind == TYPES:
            parameters = parameters_of(reader)
        elif kind == FUNCTIONS:
            functions = [parameters[reader.number()] for _ in range(reader.number())]
        elif kind == TABLES:
            part = each(reader, lambda it: it.take(1) + limits(it))
        elif kind == MEMORIES:
            part = each(reader, limits)
        elif kind == ELEMENTS:
            part = each(reader, element)
        elif kind == DATA:
            part = each(reader, segment)
        elif kind == CODE:
            counts = iter(functions)
            part = each(reader, lambda it: body(Reader(it.take(it.number())), next(counts)))
        made += [bytes([kind]), number(len(part)), part]
    return b"".join(made)


def each(reader: Reader, change: Callable[[Reader], bytes]) -> bytes:
    """A list, with each of its members changed."""
    count = reader.number()
    made = number(count) + b"".join([change(reader) for _ in range(count)])
    if reader.has_more:
        raise Changed("a section of the linked module has another form")
    return made


def parameters_of(reader: Reader) -> list[int]:
    """How many parameters each type of a function has."""
    found = []
    for _ in range(reader.number()):
        if reader.byte() != 0x60:
            raise Changed("the linked module has a type that is no function's")
        count = reader.number()
        reader.take(count)
        reader.take(reader.number())
        found.append(count)
    return found


def limits(reader: Reader) -> bytes:
    flags = reader.byte()
    if flags & ~1 != IS_WIDE:
        raise Changed("the linked module has a memory or a table without 64 bits")
    least = reader.number()
    most = number(min(reader.number(), MOST_PAGES)) if flags & 1 else b""
    return bytes([flags & 1]) + number(least) + most


def place(reader: Reader) -> bytes:
    """Where a part of the memory or the table begins."""
    if reader.byte() != I64_CONST:
        raise Changed("a part of the linked module's memory begins at no constant")
    at = reader.signed()
    if not 0 <= at < 1 << 31 or reader.byte() != END:
        raise Changed("a part of the linked module's memory begins at no constant")
    return bytes([I32_CONST]) + signed(at) + bytes([END])


def element(reader: Reader) -> bytes:
    if reader.number() != 0:
        raise Changed("the linked module has elements of another form")
    begins = place(reader)
    count = reader.number()
    return (
        number(0) + begins + number(count) + b"".join(number(reader.number()) for _ in range(count))
    )


def segment(reader: Reader) -> bytes:
    if reader.number() != 0:
        raise Changed("the linked module has data of another form")
    begins = place(reader)
    size = reader.number()
    return number(0) + begins + number(size) + reader.take(size)


def body(reader: Reader, parameters: int) -> bytes:
    """A function's locals and instructions."""
    groups = [(reader.number(), reader.byte()) for _ in range(reader.number())]
    own = Locals(parameters + sum(count for count, _ in groups))
    code = []
    while reader.has_more:
        code.append(instruction(reader, reader.byte(), own))
    groups += [(1, kind) for kind in own.added]
    made = (
        number(len(groups))
        + b"".join(number(count) + bytes([kind]) for count, kind in groups)
        + b"".join(code)
    )
    return number(len(made)) + made


def instruction(reader: Reader, opcode: int, own: Locals) -> bytes:
    """Reads what follows an opcode; gives the instruction, with what is put before and behind it.

    The linker leaves room in the numbers that it fills in; they are written without it.
    """
    code = bytes([opcode])
    if opcode in BARE:
        return code
    if opcode in NUMBERED:
        return code + number(reader.number())
    if opcode in SIGNED:
        return code + signed(reader.signed())
    if opcode in LOADS:
        return WRAP + code + address(reader)
    if opcode in STORES:
        return below(own, STORED[opcode]) + code + address(reader)
    if opcode in FIXED:
        return code + reader.take(FIXED[opcode])
    if opcode == BR_TABLE:
        count = reader.number()
        return code + number(count) + b"".join([number(reader.number()) for _ in range(count + 1)])
    if opcode == SELECT_OF:
        count = reader.number()
        return code + number(count) + reader.take(count)
    if opcode == CALL_INDIRECT:
        return WRAP + code + number(reader.number()) + number(reader.number())
    if opcode == SIZE:
        return code + number(reader.number()) + EXTEND
    if opcode == GROW:
        # A memory that does not grow gives -1.
        return WRAP + code + number(reader.number()) + EXTEND_SIGN
    if opcode == PREFIX:
        return prefixed(reader, reader.number(), own)
    raise Changed(f"the linked module has the instruction {opcode:#04x}")


def address(reader: Reader) -> bytes:
    alignment, offset = reader.number(), reader.number()
    if alignment >= 0x40 or offset >= 1 << 32:
        raise Changed("the linked module has an access of another form")
    return number(alignment) + number(offset)


def below(own: Locals, kind: int) -> bytes:
    """Cuts the address that is below a value of a type."""
    value = own.of(kind)
    return SET + value + WRAP + GET + value


def prefixed(reader: Reader, which: int, own: Locals) -> bytes:
    """One of the instructions whose opcode is in two parts."""
    code = bytes([PREFIX]) + number(which)
    if which < 8:
        return code
    if which == COPY:
        size, source = own.of(I64), own.of(I64, 1)
        return (
            SET
            + size
            + SET
            + source
            + WRAP
            + GET
            + source
            + WRAP
            + GET
            + size
            + WRAP
            + code
            + reader.take(2)
        )
    if which == FILL:
        size, value = own.of(I64), own.of(I32)
        return (
            SET
            + size
            + SET
            + value
            + WRAP
            + GET
            + value
            + GET
            + size
            + WRAP
            + code
            + reader.take(1)
        )
    raise Changed(f"the linked module has the instruction 0xfc {which:#04x}")
