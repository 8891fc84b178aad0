"""Moodle: the assignment's "Download all submissions", the grading worksheet, the zip file of feedback.

    Full Name_12345_assignsubmission_file_/FILE          12345: the participant's number
    Full Name_12345_assignsubmission_onlinetext_/onlinetext.html

The same names without folders where that is chosen there. The name may have the student's group in
front. With blind marking it is the teacher's language's word for a participant, the same for all.

Source: from memory of `mod/assign/locallib.php` (`download_submissions`) and of
`mod/assign/feedback/offline`; whether a folder's name ends in `_` differs from version to version.
"""
from __future__ import annotations

import re
from collections.abc import Sequence
from dataclasses import replace

from classroom.base.csvcells import safe
from classroom.people.identity import key
from classroom.platforms import back as returning
from classroom.platforms.archive import Member
from classroom.platforms.back import PAGE, Back, Made, Wanted
from classroom.platforms.handed import Handed, Reading, each
from classroom.platforms.platform import Platform

NAME = re.compile(
    # The first number is the platform's; what follows the kind was named by the student.
    r"(?P<name>.+?)_(?P<number>[0-9]+)_assignsubmission_(?P<kind>file|onlinetext)_?(?P<file>.*)"
)
ONLINE = "onlinetext.html"
# The word for a participant in some languages, as a file's name has it.
PARTICIPANTS = frozenset(
    ("participant", "participante", "partecipante", "teilnehmer", "teilnehmerin", "deelnemer")
)
COLUMNS = ("Identifier", "Full name", "Grade", "Feedback comments")


def recognises(member: Member) -> bool:
    return any(NAME.fullmatch(part) for part in member.path)


def of_member(member: Member) -> Handed | None:
    for at, part in enumerate(member.path):
        found = NAME.fullmatch(part)
        if found:
            file = ("/".join(member.path[at + 1 :]) or found["file"]).rpartition("/")[2]
            return Handed(
                member,
                "moodle",
                found["number"],
                found["name"],
                file,
                is_online_text=found["kind"] == "onlinetext" and file == ONLINE,
            )
    return None


def read(members: Sequence[Member]) -> Reading:
    reading = each(members, of_member)
    word = hidden_name(reading.found)
    reading.found = [
        replace(one, name=f"{one.name} {one.number}") if key(one.name) == word else one
        for one in reading.found
    ]
    return reading


def hidden_name(found: Sequence[Handed]) -> str:
    """The key of the word that stands for every name where marking is blind; empty where it is
    not. A language that is not known shows by one word that all have, and no name is."""
    names = {key(one.name) for one in found}
    numbers = {one.number for one in found}
    if len(names) != 1:
        return ""
    word = next(iter(names))
    is_word = word in PARTICIPANTS or len(numbers) > 1 and " " not in word
    return word if is_word else ""


def number(back: Back) -> str:
    """The participant's number: of the class list, else of the archive."""
    found = [NAME.fullmatch(part) for member in back.members for part in member.split("/")]
    return back.of.student.moodle or next((match["number"] for match in found if match), "")


def table(backs: Sequence[Back], wanted: Wanted) -> Made:
    rows = [
        (
            f"Participant {number(back)}",
            safe(back.of.student.name),
            back.points,
            safe(back.comment),
        )
        for back in backs
        if number(back)
    ]
    return Made(returning.table([COLUMNS, *rows]), returning.without(backs, number))


def place(back: Back, wanted: Wanted) -> str:
    """In the folder of the submission, as the archive had it; else as it would be."""
    for member in back.members:
        for part in member.split("/")[:-1]:
            if NAME.fullmatch(part):
                return f"{part}/{PAGE}"
    student = back.of.student
    name = student.name.replace("/", "_")
    return f"{name}_{student.moodle}_assignsubmission_file_/{PAGE}" if student.moodle else ""


PLATFORM = Platform(
    "moodle",
    "Moodle, “Download all submissions”",
    (
        "Full Name_12345_assignsubmission_file_/FILE.sql",
        ".._onlinetext_/onlinetext.html",
        "Participant_12345_assignsubmission_file_/FILE.sql",
    ),
    "from memory",
    recognises,
    read,
    table=table,
    table_file="moodle.csv",
    table_holds=", ".join(COLUMNS),
    place=place,
    place_form="Full Name_12345_assignsubmission_file_/feedback.html",
)
