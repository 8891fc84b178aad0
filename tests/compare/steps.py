"""An independent check of a certificate's steps, as LRAT has them: each clause follows from the
lines that it names by unit propagation, in their order, and the last one refutes what is assumed.

The lines that the steps stand on are those that the program `measure` says; no code of the checker
in the crates is used."""
from __future__ import annotations

from dataclasses import dataclass
from typing import Optional

# A variable and whether it is true.
Literal = tuple[int, bool]


@dataclass(frozen=True)
class Step:
    clause: frozenset[Literal]
    hints: tuple[int, ...]


@dataclass(frozen=True)
class Encoding:
    lines: list[frozenset[Literal]]
    assumed: Optional[Literal]


def literal(text: str) -> Literal:
    return int(text[1:]), {"+": True, "-": False}[text[0]]


def clause(text: str) -> frozenset[Literal]:
    return frozenset(literal(word) for word in text.split())


def read_encoding(text: str) -> Encoding:
    *lines, last = text.splitlines()
    assumed = last.removeprefix("assume ").split()
    return Encoding([clause(line) for line in lines], literal(assumed[0]) if assumed else None)


def read_steps(text: str) -> list[Step]:
    found = []
    for line in text.splitlines():
        if line.startswith("d "):
            lits, _, hints = line[2:].partition(";")
            found.append(Step(clause(lits), tuple(int(hint) for hint in hints.split())))
    return found


def follows(step: Step, lines: list[frozenset[Literal]]) -> bool:
    """Whether the lines that are named leave no room for a choice at which the clause is false."""
    true = {(variable, not on) for variable, on in step.clause}
    for hint in step.hints:
        left = [lit for lit in lines[hint] if (lit[0], not lit[1]) not in true]
        if not left:
            return True
        if len(left) > 1:
            return False
        true.add(left[0])
    return False


def fault(certificate: str, encoding: Encoding) -> Optional[str]:
    """The first thing that is wrong; None where the certificate proves its verdict."""
    added = next(
        int(line.split()[1]) for line in certificate.splitlines() if line.startswith("added ")
    )
    if added != len(encoding.lines):
        return f"{len(encoding.lines)} lines, and the certificate says {added}"
    lines = list(encoding.lines)
    for number, step in enumerate(read_steps(certificate), 1):
        if not follows(step, lines):
            return f"step {number} does not follow"
        lines.append(step.clause)
    denied = (
        frozenset()
        if encoding.assumed is None
        else frozenset({(encoding.assumed[0], not encoding.assumed[1])})
    )
    return None if any(line <= denied for line in lines) else "no line refutes what is assumed"
