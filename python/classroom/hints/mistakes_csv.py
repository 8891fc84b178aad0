"""The mistakes of a class as a table: for each task the mistakes, the most frequent first, with how
many answers have one and where."""
from __future__ import annotations

import csv
import io
from collections import Counter
from collections.abc import Iterator, Mapping, Sequence
from dataclasses import dataclass

from classroom.base.errors import shown
from classroom.base.csvcells import safe
from classroom.grading.graded import Graded
from classroom.hints.mistake import PROVED, Mistake
from ratest.draw import counted

NOT_FOUND = "no single change was found"
COLUMNS = ("task", "mistake", "answers", "place", "kind", "decided_by", "names", "repair")


@dataclass(frozen=True)
class Line:
    """One mistake of a task."""

    task: str
    mistake: str
    place: str  # the most frequent one in the answers
    kind: str
    decided_by: str
    names: tuple[str, ...]
    repair: str  # the text of the first answer with its best change; empty where there is none


def lines(graded: Sequence[Graded], found: Mapping[str, Mistake]) -> list[Line]:
    groups: dict[tuple[str, str, str], list[Graded]] = {}
    for of in graded:
        if of.record in found:
            name = name_of(found[of.record])
            groups.setdefault(
                (of.task.label, name, found[of.record].decided_by if name != NOT_FOUND else ""), []
            ).append(of)
    order = list(dict.fromkeys(of.task.label for of in graded))
    made = [line(task, mistake, members, found) for (task, mistake, _), members in groups.items()]
    return sorted(
        made, key=lambda one: (order.index(one.task), one.mistake == NOT_FOUND, -len(one.names))
    )


def name_of(mistake: Mistake) -> str:
    if mistake.name or not mistake.pair:
        return mistake.name or NOT_FOUND
    return f"right with two changes: {'; '.join(mistake.pair[:-1])}"


def line(task: str, mistake: str, members: Sequence[Graded], found: Mapping[str, Mistake]) -> Line:
    own = [found[of.record] for of in members]
    places = Counter(one.where for one in own if one.where)
    kinds = Counter(one.kind for one in own if one.kind)
    repair = next(
        (
            one.repairs[0].text if one.repairs else one.pair[-1]
            for one in own
            if one.repairs or one.pair
        ),
        "",
    )
    return Line(
        task,
        mistake,
        most_frequent(places),
        most_frequent(kinds),
        own[0].decided_by if mistake != NOT_FOUND else "",
        tuple(of.answer.label for of in members),
        repair,
    )


def most_frequent(counts: Counter[str]) -> str:
    return counts.most_common(1)[0][0] if counts else ""


def csv_of(made: Sequence[Line]) -> bytes:
    text = io.StringIO(newline="")
    writer = csv.writer(text, lineterminator="\n")
    writer.writerow(COLUMNS)
    for one in made:
        cells = (
            one.task,
            one.mistake,
            str(len(one.names)),
            one.place,
            one.kind,
            one.decided_by,
            "; ".join(one.names),
            one.repair,
        )
        writer.writerow([safe(cell) for cell in cells])
    return text.getvalue().encode("utf-8", "replace")


def told(made: Sequence[Line]) -> Iterator[str]:
    """Lines for a terminal."""
    task = None
    for one in made:
        if one.task != task:
            task = one.task
            yield f"task {shown(task)}:"
        place = f" ({one.place})" if one.place else ""
        tried = "" if one.decided_by == PROVED or one.mistake == NOT_FOUND else ", tried"
        yield f"  {counted(len(one.names), 'answer')}: {shown(one.mistake)}{place}{tried}"
