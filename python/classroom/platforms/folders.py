"""A folder for each student, of no platform.

    ID/FILE
    TOP/ID/FILE      where one folder is around all students
"""
from __future__ import annotations

from collections.abc import Sequence

from classroom.platforms.archive import Member
from classroom.platforms.handed import Handed, Reading, each
from classroom.platforms.platform import Platform


def of_member(member: Member) -> Handed | None:
    path = member.path
    return Handed(member, "id", path[0], path[0], path[-1]) if len(path) >= 2 else None


def below_top(members: Sequence[Member]) -> list[Member]:
    """The files with their paths below the one folder that all of them share, where several folders
    are in it."""
    tops = {member.path[0] for member in members}
    has_inner = all(len(member.path) >= 3 for member in members)
    inner = {member.path[1] for member in members} if has_inner else set()
    if len(tops) != 1 or len(inner) < 2:
        return list(members)
    return [
        Member(member.path[1:], member.content, member.fault, member.label) for member in members
    ]


def read(members: Sequence[Member]) -> Reading:
    return each(below_top(members), of_member)


PLATFORM = Platform(
    "folders",
    "a folder for each student",
    ("ID/FILE.sql",),
    "no platform's",
    lambda member: True,
    read,
)
