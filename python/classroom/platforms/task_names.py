"""Which task a file's name means, as students and browsers write it.

`1.sql`, `1 (1).sql`, `1.sql.txt`, `01.sql`, `task1.sql`, `Aufgabe-1.sql`, `anna-1.sql` and
`1-final.sql` all mean task 1. A name that may mean two tasks means none.
"""
from __future__ import annotations

import re
from collections.abc import Sequence

from classroom.people.identity import key

ENDINGS = (".sql", ".txt", ".html")
# What a browser or a platform adds to a name that is there already, or a student to a last version.
COPY = re.compile(r"(?: ?\([0-9]{1,4}\)|[-_ ](?:copy|kopie|final|neu|new|v[0-9]{1,3}))\Z", re.ASCII)
# Where a word of a name ends: letters and digits are words of their own.
WORDS = re.compile(r"[0-9]+|[^\W\d_]+")


def task_named(file: str, tasks: Sequence[str]) -> str | None:
    """The one task that the name of a file means; None where it means none or several."""
    stem = stem_of(file)
    for name in (stem, without_copies(stem)):
        same = [task for task in tasks if key(task) == key(name)]
        if same:
            return same[0]
    name = without_copies(stem)
    found = [task for task in tasks if stands_in(task, name)]
    # A task whose words are part of another's is not meant where that one stands there.
    longest = [
        task
        for task in found
        if not any(task != other and stands_in(task, other) for other in found)
    ]
    return longest[0] if len(longest) == 1 else None


def stem_of(file: str) -> str:
    """The name without its endings, of which an editor may have added a second one."""
    name = file.strip()
    while name.casefold().endswith(ENDINGS):
        name = name[: name.rindex(".")].rstrip()
    return name


def without_copies(stem: str) -> str:
    """The name without what tells one copy from another."""
    while True:
        shorter = COPY.sub("", stem).rstrip() if len(stem) < 300 else stem
        if shorter in ("", stem):
            return stem
        stem = shorter


def words_of(name: str) -> list[str]:
    """The words and numbers of a name, folded; of numbers without zeros in front."""
    return [
        word.lstrip("0") or "0" if word.isdigit() else word for word in WORDS.findall(key(name))
    ]


def stands_in(task: str, name: str) -> bool:
    """Whether the words of a task's name stand in a file's name, one after another."""
    wanted, given = words_of(task), words_of(name)
    if not wanted:
        return False
    return any(given[at : at + len(wanted)] == wanted for at in range(len(given) - len(wanted) + 1))
