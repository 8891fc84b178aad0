"""What an answer comes to: its grade, by whom it is decided, and what is remarked on it."""
from __future__ import annotations

from dataclasses import dataclass
from enum import Enum, StrEnum
from typing import NamedTuple

from classroom.verdict.verdict import Remark

PROVED, NOT_PROVED = "proved", "not proved"  # by `ratest`, or by a build of it without proofs


class Grade(StrEnum):
    """What an answer comes to, in the order in which it is told."""

    AGREES = "agrees"
    NO_DIFFERENCE = "no difference found"  # by trying
    DIFFERS = "differs"
    WRONG_SQL = "wrong SQL"  # the exercise's engine refuses its syntax, or a name that is nowhere
    NOT_READ = (
        "not read"  # nothing that was asked reads it, or its file is no text of one statement
    )
    NOT_DETERMINED = "not determined"  # it depends on the order in which the rows are stored
    NO_VERDICT = (  # a limit of size, work, time or memory, or the budget without a result
        "no verdict"
    )
    NOT_GRADED = "not graded"  # the task's own reference is refused

    @property
    def share(self) -> float | None:
        """Of the task's points; None where there is no score."""
        return {Grade.AGREES: 1, Grade.NO_DIFFERENCE: 1, Grade.DIFFERS: 0, Grade.WRONG_SQL: 0}.get(
            self
        )

    @property
    def css(self) -> str:
        """The class of the style sheet."""
        return self.lower().replace(" ", "-")

    def of_many(self, count: int) -> str:
        """As `2 differ`."""
        return f"{count} {COUNTED[self][count != 1]}"


COUNTED = {
    Grade.AGREES: ("agrees", "agree"),
    Grade.DIFFERS: ("differs", "differ"),
    Grade.NO_DIFFERENCE: ("has no difference that was found", "have no difference that was found"),
    Grade.NOT_DETERMINED: ("is not determined", "are not determined"),
    Grade.WRONG_SQL: ("is wrong SQL", "are wrong SQL"),
    Grade.NOT_READ: ("is not read", "are not read"),
    Grade.NO_VERDICT: ("has no verdict", "have no verdict"),
    Grade.NOT_GRADED: ("is not graded", "are not graded"),
}


class NoteKind(Enum):
    """What is remarked on an answer beside its grade."""

    PERHAPS_FEWER = 1  # fewer rows may do
    OTHER_COLUMNS = 2
    TEXT = 3  # how its file was read; the value is a text
    DIFFERENCE = 4  # how it differs; the value is one of `sentences.KINDS`
    SLIGHT_AGREES = 5  # proved to agree as a set; the value is a Remark
    SLIGHT_SAME = 6  # no difference was found as a set; the value is a Remark
    OTHERWISE = 7  # it agrees, and the database answers otherwise; the value is a Remark
    NOT_LOOKED = 8  # what counts as wrong was looked at by no database; the value names it
    OTHER_REFERENCE = 9  # it is compared with another of several references; the value is its file


class Note(NamedTuple):
    kind: NoteKind
    value: str | Remark | None = None

    @property
    def is_slight(self) -> bool:
        """Whether it tells of duplicates or order alone."""
        return self.kind in (NoteKind.SLIGHT_AGREES, NoteKind.SLIGHT_SAME)


@dataclass(frozen=True)
class Decision:
    """The verdict on one answer."""

    grade: Grade
    by: str = ""  # PROVED, NOT_PROVED or an engine as `sqlite 3.40.1`; empty where there is none
    fault: str = ""  # why it is refused or has no verdict; empty where nothing has to be said
    notes: tuple[Note, ...] = ()
    is_tried: bool = False  # whether it comes from a database
    is_open: bool = False  # whether the teacher looks at it all the same
    of_reference: str = ""  # why a database can't answer the reference, which no student is told
    has_died: bool = False  # whether the program ended without an answer that can be read
    dialect: str = ""  # the dialect that reads it, where the exercise's engine doesn't
