"""Two builds of the programs: what each writes, byte for byte, and how it ends."""
from __future__ import annotations

import os
from dataclasses import dataclass
from pathlib import Path
from random import Random
from typing import Iterator, Optional, Sequence

from .by_broken import broken
from .draw import Limits
from .model import Case
from .program import TOP, Answer, call, files, folder_of, query_text

SECONDS = 120.0
EXAMPLES = TOP / "examples"
# Which program a line of arguments is for.
PLAIN, PLUS = "ratest", "ratest_plus"


@dataclass(frozen=True)
class Build:
    """A folder with both programs, each under its name or as `tools/launch` makes it without
    proofs."""

    folder: str

    def program(self, name: str) -> str:
        plain = f"{self.folder}/{name}"
        return plain if os.access(plain, os.X_OK) else f"{plain}.unproved"

    def missing(self) -> Optional[str]:
        for name in (PLAIN, PLUS):
            if not os.access(self.program(name), os.X_OK):
                return f"no program {name} in {self.folder}"
        return None

    def answer(self, name: str, words: Sequence[str]) -> Answer:
        return call([self.program(name), *words], SECONDS)


def told(name: str, words: Sequence[str], old: Answer, new: Answer) -> str:
    parts = [f"{name} {' '.join(words)}"]
    for side, answer in (("old", old), ("new", new)):
        parts.append(
            f"{side}: status {answer.status}, output {answer.out[:400]!r}, error"
            f" {answer.err[:400]!r}"
        )
    return "\n".join(parts)


def apart(old: Answer, new: Answer, words: Sequence[str]) -> bool:
    """A certificate may have other steps from build to build: of `prove` the status and the claim
    count."""
    if words[:1] == ["prove"]:
        return (old.status, old.err, claim_of(old.out)) != (new.status, new.err, claim_of(new.out))
    return old != new


def claim_of(certificate: bytes) -> list[bytes]:
    """What a certificate says before its steps: its form, the rows and the number of clauses."""
    return certificate.split(b"\n")[:3]


@dataclass(frozen=True)
class Builds:
    """Of a seeded case: both programs on it, on its texts with some bytes changed, and on each
    other's certificate."""

    old: Build
    new: Build
    name: str = "compare_builds"
    limits: Limits = Limits()

    def difference(self, case: Case) -> Optional[str]:
        random = Random(query_text(case.first) + query_text(case.second))
        with folder_of(case) as folder:
            (folder / "list").write_text(f"{folder}/2.sql\n{folder}/1.sql\n", encoding="utf-8")
            certificate = folder / "certificate"
            certificate.write_bytes(self.old.answer(PLUS, ["prove", *files(folder)]).out)
            for name, words in commands(folder, random):
                if difference := self.compared(name, words):
                    return difference
            path = random.choice(sorted(folder.iterdir()))
            path.write_bytes(broken(path.read_bytes(), random))
            name, words = random.choice(list(commands(folder, random)))
            return self.compared(name, words)

    def on_example(self, line: tuple[str, list[str]]) -> Optional[str]:
        return self.compared(*line)

    def compared(self, name: str, words: Sequence[str]) -> Optional[str]:
        old, new = self.old.answer(name, words), self.new.answer(name, words)
        return told(name, words, old, new) if apart(old, new, words) else None


def commands(folder: Path, random: Random) -> Iterator[tuple[str, list[str]]]:
    """Each command on the files of a case."""
    schema, rows, first, second = files(folder)
    yield PLAIN, [schema, rows, first, second]
    yield PLAIN, [schema, rows, first, second, "--conflicts", str(random.choice((1, 2, 5, 300)))]
    yield PLUS, ["grade", schema, rows, first, f"{folder}/list"]
    yield PLUS, ["row", "1, 'a'", schema, rows, first, second]
    yield PLUS, ["ra", schema, rows, first, second]
    yield PLUS, ["prove", schema, rows, first, second]
    yield PLUS, ["check", f"{folder}/certificate", schema, rows, first, second]


def pairs(folder: Path, pattern: str) -> Iterator[tuple[str, str]]:
    """The first text of a folder and of those in it, with each of them, both ways."""
    texts = sorted(
        str(path) for path in folder.rglob(pattern) if path.is_file() and path.name != "schema.sql"
    )
    for text in texts:
        yield texts[0], text
        yield text, texts[0]


def examples() -> Iterator[tuple[str, list[str]]]:
    """Both programs on the files of each example and of each program's own run."""
    folders = [path for path in sorted(EXAMPLES.iterdir()) if (path / "schema.sql").is_file()]
    folders += sorted(
        path for path in (TOP / "crates").glob("*/data") if (path / "schema.sql").is_file()
    )
    for folder in folders:
        schema = f"{folder}/schema.sql"
        for first, second in pairs(folder, "*.sql"):
            yield PLAIN, [schema, str(folder), first, second]
            yield PLUS, ["prove", schema, str(folder), first, second]
        for first, second in pairs(folder, "*.ra"):
            yield PLUS, ["ra", schema, str(folder), first, second]
    alone: list[list[str]] = [[], ["made", "5"], ["row"], ["grade"], ["prove"], ["check"], ["ra"]]
    for words in alone:
        yield PLAIN, words
        yield PLUS, words
