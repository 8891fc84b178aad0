"""The commands `ratest` and `ratest_plus` of a wheel: the packed program takes this process's
place.

`--help`, `--version` and a call without words are answered by texts that are packed with the
program, as the front of an installation below a prefix answers them (tools/release/front in the
repository). """
from __future__ import annotations

import os
import sys

from ratest.installed import PACKED

USAGE = 2
HELP = ("--help", "-h")


def run(name: str, words: list[str]) -> int:
    """Answers, or runs the program, which does not come back."""
    kind = asked(words)
    if kind == "usage":
        sys.stderr.write(text(name, kind))
        return USAGE
    if kind:
        sys.stdout.write(text(name, kind))
        return 0
    os.execv(PACKED / name, [name, *words])


def asked(words: list[str]) -> str:
    """Which of the packed texts is asked for: usage, help or version; "" where the program
    answers."""
    if not words:
        return "usage"
    if words[0] in HELP or (len(words) == 2 and words[1] in HELP):
        return "help"
    return "version" if words[0] == "--version" else ""


def text(name: str, kind: str) -> str:
    return (PACKED / f"{name}.{kind}").read_text(encoding="utf-8")


def ratest() -> int:
    return run("ratest", sys.argv[1:])


def ratest_plus() -> int:
    return run("ratest_plus", sys.argv[1:])
