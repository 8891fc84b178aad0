"""What goes back to a platform for one student, and what the files of all platforms are made by."""
from __future__ import annotations

import csv
import io
import zipfile
from collections.abc import Callable, Iterable, Sequence
from dataclasses import dataclass

from classroom.marks.gradebook import Standing
from classroom.marks.mark import shown
from classroom.people.roster import Student
from classroom.views.for_student import Part, Sheet

PAGE = "feedback.html"


@dataclass(frozen=True)
class Back:
    """What goes back for one student."""

    of: Standing
    sheet: Sheet
    page: bytes
    members: tuple[str, ...]  # the files of the archive from which the answers were collected

    @property
    def comment(self) -> str:
        """All verdicts in one text."""
        return "; ".join(map(told_of_part, self.sheet.parts))

    @property
    def points(self) -> str:
        """Nothing as long as an answer is to be graded by hand."""
        return "" if self.of.open else shown(self.of.points)


def told_of_part(part: Part) -> str:
    """As `2: differs (1.5 of 2), late by 1 day: the join is right`."""
    said = ", ".join(filter(None, (f"{part.title}: {part.words} ({part.points})", part.late)))
    comment = " ".join(line.strip() for line in part.comment if line.strip())
    return f"{said}: {comment}" if comment else said


@dataclass(frozen=True)
class Wanted:
    """How a teacher wants a table."""

    assignment: str  # its name at the platform
    visibility: str = "visible"  # of the tests at Gradescope


@dataclass(frozen=True)
class Made:
    """A file for a platform, and who is not in it."""

    content: bytes
    without: tuple[Student, ...] = ()


def table(rows: Iterable[Sequence[str]]) -> bytes:
    """A CSV file as platforms read it."""
    text = io.StringIO(newline="")
    csv.writer(text, lineterminator="\r\n").writerows(rows)
    return text.getvalue().encode("utf-8", "replace")


def without(backs: Sequence[Back], of: Callable[[Back], str]) -> tuple[Student, ...]:
    """Who has not what a platform knows students by."""
    return tuple(back.of.student for back in backs if not of(back))


def archive(backs: Sequence[Back], place: Callable[[Back], str]) -> Made:
    """A zip file with each page at its place, the same bytes each time; who has no place is left
    out."""
    content = io.BytesIO()
    with zipfile.ZipFile(content, "w", zipfile.ZIP_DEFLATED) as made:
        for back in backs:
            if place(back):
                info = zipfile.ZipInfo(place(back))
                info.compress_type = zipfile.ZIP_DEFLATED
                info.external_attr = 0o644 << 16
                made.writestr(info, back.page)
    return Made(content.getvalue(), without(backs, place))
