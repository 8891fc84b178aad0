"""nbgrader: the folder of a course in which hand-ins are collected, and the one of feedback.

    submitted/ID/ASSIGNMENT/FILE
    submitted/ID/ASSIGNMENT/timestamp.txt      the moment of the hand-in, the platform's own file:
                                               2015-02-02 15:58:23.948203 America/Los_Angeles

Source: nbgrader's documentation, "The philosophy and the approach" and "Collecting assignments".
"""
from __future__ import annotations

import re
from collections.abc import Sequence
from dataclasses import replace
from datetime import datetime
from zoneinfo import ZoneInfo

from classroom.platforms.archive import Member
from classroom.platforms.back import PAGE, Back, Wanted
from classroom.platforms.handed import Handed, Reading, each
from classroom.platforms.platform import Platform

SUBMITTED = "submitted"
TIME = "timestamp.txt"
MOMENT = re.compile(
    r"([0-9]{4}-[0-9]{2}-[0-9]{2})[ T]([0-9]{2}:[0-9]{2}:[0-9]{2})(?:\.[0-9]*)?"
    r" ?(Z|[+-][0-9]{2}:?[0-9]{2}|[A-Za-z][A-Za-z0-9_+/-]{0,60})?"
)


def recognises(member: Member) -> bool:
    return SUBMITTED in member.path[:2] and len(member.path) > 3


def below(path: tuple[str, ...]) -> tuple[str, ...]:
    """The path below `submitted`, which is the platform's at the top or in the one folder there."""
    return path[path.index(SUBMITTED) + 1 :] if SUBMITTED in path[:2] else path


def is_own(member: Member) -> bool:
    inner = below(member.path)
    return SUBMITTED in member.path[:2] and len(inner) == 3 and inner[-1] == TIME


def of_member(member: Member) -> Handed | None:
    path = below(member.path)
    if len(path) < 3:
        return None
    return Handed(member, "id", path[0], path[0], path[-1], assignment=path[1])


def read(members: Sequence[Member]) -> Reading:
    times = {
        below(member.path)[:2]: moment(member.content.decode("ascii", "replace"))
        for member in members
        if is_own(member)
    }
    reading = each([member for member in members if not is_own(member)], of_member)
    reading.found = [
        replace(one, time=times.get((one.number, one.assignment), "")) for one in reading.found
    ]
    return reading


def moment(text: str) -> str:
    """The moment of a hand-in with its zone, which is UTC where none is said; empty where the text
    is none."""
    found = MOMENT.fullmatch(text.strip())
    if not found:
        return ""
    zone = found[3] or "UTC"
    try:
        if zone == "Z" or zone[0] in "+-":
            return datetime.fromisoformat(f"{found[1]}T{found[2]}{zone}").isoformat()
        local = datetime.fromisoformat(f"{found[1]}T{found[2]}")
        return local.replace(tzinfo=ZoneInfo(zone)).isoformat()
    except (ValueError, KeyError, OSError):
        return ""


def place(back: Back, wanted: Wanted) -> str:
    for member in back.members:
        parts = member.split("/")
        if SUBMITTED in parts[:-3]:
            at = parts.index(SUBMITTED)
            return f"feedback/{parts[at + 1]}/{parts[at + 2]}/{PAGE}"
    return f"feedback/{back.of.student.id}/{wanted.assignment}/{PAGE}"


PLATFORM = Platform(
    "nbgrader",
    "nbgrader",
    ("submitted/ID/ASSIGNMENT/FILE.sql",),
    "its documentation",
    recognises,
    read,
    is_own,
    place=place,
    place_form="feedback/ID/ASSIGNMENT/feedback.html",
)
