"""Broken texts: the files and arguments of a small case, of which some bytes are changed, cut,
doubled or exchanged. Each call has to end in time with a status that is known, and to write to one
of its two outputs."""
from __future__ import annotations

from dataclasses import dataclass
from pathlib import Path
from random import Random
from typing import Optional

from .draw import Limits
from .model import Case
from .program import Answer, call, files, folder_of, program, query_text, ratest_plus

SECONDS = 20.0
# Bytes that mean something in one of the texts, and some that mean nothing anywhere.
BYTES = b"\x00\t\n\r \"'(),*+-./0129;<=>AEINOSaz_|\x7f\x80\xc3\xef\xbb\xbf\xff"
WORDS = (
    b"SELECT",
    b"NOT",
    b"(",
    b")",
    b"NULL",
    b"UNION",
    b"--",
    b"/*",
    b"9223372036854775808",
    b"CREATE TABLE",
    b"''",
)
ON_OUTPUT, ON_ERROR, ANYWHERE = (0, 1, 4), (2, 3, 5, 6, 8), (7,)


def broken(text: bytes, random: Random) -> bytes:
    """One to three changes of a text."""
    for _ in range(random.randint(1, 3)):
        at, to = sorted((random.randint(0, len(text)), random.randint(0, len(text))))
        form = random.randrange(7)
        if form == 0:
            text = text[:at]
        elif form == 1:
            text = text[:at] + text[at + random.randint(1, 4) :]
        elif form == 2:
            text = text[:at] + bytes([random.choice(BYTES)]) + text[at + 1 :]
        elif form == 3:
            text = text[:at] + random.choice(WORDS) + text[at:]
        elif form == 4:
            text = text[:to] + text[at:to] + text[to:]
        elif form == 5:
            text = text[:at] + bytes([random.choice(BYTES)]) + text[at:]
        elif text:
            text = text[to:] + text[at:to] + text[:at]
    return text


def fault(answer: Answer) -> Optional[str]:
    """What is wrong with how a call ended."""
    if answer.status is None:
        return f"no end within {SECONDS:.0f} seconds"
    if answer.status in ON_OUTPUT:
        is_good = bool(answer.out) and not answer.err
    elif answer.status in ON_ERROR:
        is_good = bool(answer.err) and not answer.out
    else:
        is_good = answer.status in ANYWHERE
    return (
        None
        if is_good
        else f"status {answer.status}, output {answer.out[:200]!r}, error {answer.err[:200]!r}"
    )


@dataclass(frozen=True)
class Broken:
    name: str = "compare_broken"
    limits: Limits = Limits(depth=1)

    def difference(self, case: Case) -> Optional[str]:
        random = Random(query_text(case.first) + query_text(case.second))
        with folder_of(case) as folder:
            # A list, and a certificate where there is one.
            (folder / "list").write_text(f"{folder}/2.sql\n{folder}/1.sql\n", encoding="utf-8")
            (folder / "certificate").write_bytes(ratest_plus(["prove", *files(folder)]).out)
            for _ in range(5):
                told = self.attempt(folder, random)
                if told:
                    return told
        return None

    def attempt(self, folder: Path, random: Random) -> Optional[str]:
        path = random.choice(sorted(folder.iterdir()))
        whole = path.read_bytes()
        path.write_bytes(broken(whole, random))
        words = self.command(folder, path.name, random)
        if random.random() < 0.1:
            at = random.randrange(1, len(words))
            # An argument can hold no byte 0.
            words[at] = (
                broken(words[at].encode(), random)
                .replace(b"\0", b"")
                .decode(errors="surrogateescape")
            )
        answer = call(words, SECONDS)
        told = fault(answer)
        text = path.read_bytes()
        path.write_bytes(whole)
        return told and f"{words}\n{path.name}: {text!r}\n{told}"

    def command(self, folder: Path, name: str, random: Random) -> list[str]:
        schema, rows, first, second = files(folder)
        plus = program("ratest_plus")
        if name == "certificate":
            return [plus, "check", f"{folder}/certificate", schema, rows, first, second]
        if name == "list":
            return [plus, "grade", schema, rows, first, f"{folder}/list"]
        return random.choice(
            (
                [program("ratest"), schema, rows, first, second],
                [program("ratest"), schema, rows, first, second, "--conflicts", "5"],
                [plus, "grade", schema, rows, first, f"{folder}/list"],
                [plus, "row", "1, 'a'", schema, rows, first, second],
                [plus, "ra", schema, rows, first, second],
                [plus, "prove", schema, rows, first, second],
            )
        )
