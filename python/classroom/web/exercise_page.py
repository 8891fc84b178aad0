"""What the page of an exercise shows."""
from __future__ import annotations

from collections.abc import Mapping, Sequence
from dataclasses import dataclass
from typing import NamedTuple

from classroom.engines.own_answer import OwnAnswer
from classroom.views.answer import Answer
from classroom.views.draw_tried import drawn
from classroom.web.course import Course, Served
from classroom.web.hand_ins import Kept, Receipt
from classroom.web.hint_buttons import Hinted
from classroom.web.page_files import PageFile
from classroom.web.served_exercise import Material
from classroom.web.visitors import Visitor
from ratest.draw import Cell


class View(NamedTuple):
    """What the page shows of one request."""

    chosen: str = ""  # the task, by its name
    text: str = ""
    fault: str = ""
    answer: Answer | None = None
    receipt: Receipt | None = None
    hinted: Hinted | None = None  # None where no hint may be asked for
    told: str = ""  # of what was handed in
    ran: Ran | None = None  # what the query returns by itself


class Ran(NamedTuple):
    """What a query returns by itself, ready to be drawn."""

    engine: str
    total: int  # of its rows
    columns: tuple[str, ...]
    rows: tuple[tuple[Cell, ...], ...]  # the first ones
    failure: str


def ran_of(found: OwnAnswer) -> Ran:
    rows = tuple(tuple(map(drawn, row)) for row in found.rows)
    return Ran(found.engine, found.count, found.columns, rows, found.failure)


class HandedIn(NamedTuple):
    """What a student handed in for a task."""

    name: str  # of the task
    title: str
    counting: Kept | None  # None where it was taken back
    others: tuple[Kept, ...]  # the newest first


def by_task(material: Material, kept: Mapping[str, Sequence[Kept]]) -> tuple[HandedIn, ...]:
    """The texts of one student in the order of the tasks, of those that have some; `kept` are they
    by the task's name."""
    return tuple(
        HandedIn(
            task.name,
            task.title,
            next((one for one in kept[task.name] if one.counts), None),
            tuple(one for one in kept[task.name] if not one.counts),
        )
        for task in material.tasks
        if kept.get(task.name)
    )


@dataclass(frozen=True)
class Page:
    """The page of an exercise."""

    served: Served
    view: View
    visitor: Visitor
    course: Course
    top: str  # the way to the top of the course, for links
    files: Mapping[str, PageFile]
    state: str  # before, open or after
    token: str  # of its forms
    handed_in: tuple[HandedIn, ...]

    @property
    def title(self) -> str:
        return self.served.material.title

    @property
    def may_run(self) -> bool:
        return self.served.asker.runner is not None

    @property
    def may_hand_in(self) -> bool:
        return bool(self.served.hand_ins and self.visitor.login) and self.state == "open"
