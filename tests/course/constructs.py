"""The list of SQL's constructs: which of the three read each, with the table that is made of it."""
from __future__ import annotations

from collections.abc import Iterator
from pathlib import Path
from typing import NamedTuple

LIST = Path(__file__).with_name("constructs.txt")
YES, REWRITTEN, NO = "y", "w", "-"
WORDS = {YES: "yes", REWRITTEN: "rewritten", NO: "–"}


class Construct(NamedTuple):
    """One construct with a query that has it."""

    group: str
    name: str
    query: str
    ratest: str  # YES or NO
    sqlite: str  # YES, REWRITTEN or NO
    postgresql: str  # YES or NO


def constructs() -> Iterator[Construct]:
    group = ""
    for line in LIST.read_text(encoding="utf-8").splitlines():
        if line.startswith("## "):
            group = line[3:]
        elif line and not line.startswith("# "):
            signs, name, query = line.split(" | ", 2)
            yield Construct(group, name, query, signs[0], signs[1], signs[2])


def table() -> str:
    """As REFERENCE has it: below each group's name its constructs."""
    found = list(constructs())
    lines = []
    for group in dict.fromkeys(one.group for one in found):
        lines += [
            "",
            f"### {group}",
            "",
            "| Construct | Example | `ratest` | SQLite | PostgreSQL |",
            "|---|---|---|---|---|",
        ]
        for one in found:
            if one.group == group:
                told = " | ".join(WORDS[sign] for sign in one[3:])
                query = one.query.replace("|", "\\|")
                lines.append(f"| {one.name} | `{query}` | {told} |")
    return "\n".join(lines[1:]) + "\n"
