"""An LLVM module for x86-64 as one for wasm64.

Both have pointers of 64 bits and the same sizes and places of all that a module names, so that only
the layout, the name of the target and what is said of the processor change. What could mean
something else on the other target, as code in assembler, is refused. """
from __future__ import annotations

import re

from web.failed import Changed

TARGET = b"wasm64-unknown-unknown"
FROM_LAYOUT = b"e-m:e-p270:32:32-p271:32:32-p272:64:64-i64:64-i128:128-f80:128-n8:16:32:64-S128"
LAYOUT = b"e-m:e-p:64:64-p10:8:8-p20:8:8-i64:64-i128:128-n32:64-S128-ni:1:10:20"
HEADS = ((b"datalayout", FROM_LAYOUT, LAYOUT), (b"triple", b"x86_64-unknown-linux-gnu", TARGET))
# What is said of the processor and its stack in the attributes of functions.
OF_PROCESSOR = re.compile(
    rb' (?:"(?:probe-stack|stack-probe-size|target-cpu|target-features|tune-cpu)"="[^"]*"|sanitize_address)'
)
FRAME, NO_FRAME = b'"frame-pointer"="all"', b'"frame-pointer"="none"'
ATTRIBUTES = re.compile(rb"^attributes #\d+ = .*$", re.MULTILINE)
EXPORT = re.compile(
    (
        rb"^define (?!internal |private )[^@\n]*\bi64 @ratest_ask\(ptr [^,)]*, i64 [^,)]*, ptr"
        rb" [^,)]*, i64 [^,)]*\)"
    ),
    re.MULTILINE,
)
REFUSED = (
    (
        re.compile(
            rb"\basm (?:sideeffect |alignstack |inteldialect |unwind )*\"|^module asm ",
            re.MULTILINE,
        ),
        "the module has code in assembler",
    ),
    (re.compile(rb"@llvm\.x86\."), "the module calls what only x86-64 has"),
    (re.compile(rb"\bthread_local\b"), "the module has values of a thread"),
    (re.compile(rb"\bx86_fp80\b|\baddrspace\("), "the module has types that only x86-64 has"),
)


def retargeted(text: bytes) -> bytes:
    """The module's text for the other target."""
    for pattern, what in REFUSED:
        if pattern.search(text):
            raise Changed(what)
    if not EXPORT.search(text):
        raise Changed("the module has no function ratest_ask of two slices of bytes")
    for name, old, new in HEADS:
        line = b'\ntarget %s = "%s"\n' % (name, old)
        if text.count(line) != 1:
            raise Changed(f"the {name.decode()} of the module is not '{old.decode()}'")
        text = text.replace(line, b'\ntarget %s = "%s"\n' % (name, new))
    text = ATTRIBUTES.sub(
        lambda found: OF_PROCESSOR.sub(b"", found[0]).replace(FRAME, NO_FRAME), text
    )
    left = re.search(rb'"[^"\n]*x86[^"\n]*"', b"\n".join(ATTRIBUTES.findall(text)))
    if left:
        raise Changed(f"functions have the attribute {left[0].decode('ascii', 'replace')}")
    return text
