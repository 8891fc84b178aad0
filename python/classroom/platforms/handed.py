"""What a platform's archive says of the files in it: who handed each in, by which number, and when."""
from __future__ import annotations

from collections.abc import Callable, Iterable
from dataclasses import dataclass, field

from classroom.platforms.archive import Member


@dataclass(frozen=True)
class Handed:
    """A file that somebody handed in."""

    member: Member
    column: str  # of the class list, in which the number stands: moodle, canvas or id
    number: str
    name: str  # as the archive has it: a full name, or the number itself
    file: str  # the name of the file, as it was handed in
    order: int = 0  # of two for the same task the later has the greater one
    is_late: bool = False
    assignment: str = ""
    others: tuple[str, ...] = ()  # other names that the file may have had
    is_online_text: bool = False  # HTML that was typed at the platform
    time: str = ""  # of the hand-in, with its zone, where it is known
    # Other columns of the class list, each with what the platform has there.
    more: tuple[tuple[str, str], ...] = ()
    link: bool = False  # whether an address was handed in, and no file


@dataclass
class Reading:
    """Each file of an archive is in one of these, but those that the platform made."""

    found: list[Handed] = field(default_factory=list)
    others: list[Member] = field(default_factory=list)  # whose names have not the form
    notes: list[str] = field(default_factory=list)  # what a teacher has to know of it


def each(members: Iterable[Member], of: Callable[[Member], Handed | None]) -> Reading:
    """What is found where every file is read by itself."""
    reading = Reading()
    for member in members:
        one = of(member)
        if one:
            reading.found.append(one)
        else:
            reading.others.append(member)
    return reading
