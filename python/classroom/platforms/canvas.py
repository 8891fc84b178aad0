"""Canvas: an assignment's "Download Submissions", and the gradebook that is imported.

    lastfirst_123_45678_FILE         123: the user's number; 45678 rises
    lastfirst_LATE_123_45678_FILE
    lastfirst_123_text.html          what was typed at the platform
    lastfirst_123_link.html          an address that was handed in
    anon_a1B2c_45678_FILE            where the assignment is anonymous: a code in place of the number

Source: from memory of `lib/content_zipper.rb` and of the gradebook's export.
"""
from __future__ import annotations

import re
from collections.abc import Sequence

from classroom.base.csvcells import safe
from classroom.platforms import back as returning
from classroom.platforms.archive import Member
from classroom.platforms.back import Back, Made, Wanted
from classroom.platforms.handed import Handed, Reading, each
from classroom.platforms.platform import Platform

NAME = re.compile(
    r"(?P<name>[^_]+)(?P<late>_LATE)?_(?P<number>[0-9]+)_(?P<order>[0-9]+)_(?P<file>.+)"
)
# The names are the platform's as a whole here.
TYPED = re.compile(r"(?P<name>[^_]+)(?P<late>_LATE)?_(?P<number>[0-9]+)_(?P<kind>text|link)\.html")
ANONYMOUS = re.compile(
    r"anon(?P<late>_LATE)?_(?P<number>[A-Za-z0-9]{5})_"
    r"(?:(?P<order>[0-9]+)_(?P<file>.+)|(?P<kind>text|link)\.html)"
)
# What is added to the name of a file that is handed in again.
AGAIN = re.compile(r"-[0-9]+(?=(?:\.[^.]*)?$)")
COLUMNS = ("Student", "ID", "SIS Login ID", "Section")


def matched(name: str) -> re.Match[str] | None:
    return ANONYMOUS.fullmatch(name) or NAME.fullmatch(name) or TYPED.fullmatch(name)


def recognises(member: Member) -> bool:
    return bool(matched(member.path[-1])) and len(member.path) <= 2


def of_member(member: Member) -> Handed | None:
    """The path is the platform's file, at the top or in the one folder there."""
    found = matched(member.path[-1]) if len(member.path) <= 2 else None
    if not found:
        return None
    parts = found.groupdict()
    is_anonymous = "name" not in parts
    kind = parts.get("kind") or ""
    file = parts.get("file") or f"{kind}.html"
    plain = AGAIN.sub("", file)
    return Handed(
        member,
        "canvas",
        parts["number"],
        f"anon {parts['number']}" if is_anonymous else parts["name"],
        file,
        int(parts.get("order") or 0),
        bool(parts["late"]),
        others=(plain,) if plain != file else (),
        is_online_text=kind == "text",
        link=kind == "link",
    )


def read(members: Sequence[Member]) -> Reading:
    return each(members, of_member)


def number(back: Back) -> str:
    """The user's number: of the class list, else of the archive."""
    names = ["/".join(member.split("/")[:2]).rpartition("/")[2] for member in back.members]
    found = [NAME.fullmatch(name) or TYPED.fullmatch(name) for name in names]
    return back.of.student.canvas or next((match["number"] for match in found if match), "")


def table(backs: Sequence[Back], wanted: Wanted) -> Made:
    rows = [
        (
            safe(back.of.student.name),
            safe(number(back)),
            safe(back.of.student.id),
            "",
            back.points,
        )
        for back in backs
        if number(back)
    ]
    header = (*COLUMNS, safe(wanted.assignment))
    return Made(returning.table([header, *rows]), returning.without(backs, number))


PLATFORM = Platform(
    "canvas",
    "Canvas",
    (
        "lastfirst_123_45678_FILE.sql",
        "lastfirst_LATE_123_45678_FILE.sql",
        "lastfirst_123_text.html",
        "anon_a1B2c_45678_FILE.sql",
    ),
    "from memory",
    recognises,
    read,
    table=table,
    table_file="canvas.csv",
    table_holds=f"{', '.join(COLUMNS)}, the assignment's column (`--assignment NAME`)",
)
