"""A class list as universities export it: its encoding, what parts its cells, and its columns by
their usual names in English and German."""
from __future__ import annotations

import codecs
from collections.abc import Mapping, Sequence

from classroom.base.errors import Fault, shown
from classroom.people.identity import key

# By what a column is for, the first name that a list has.
NAMES: Mapping[str, Sequence[str]] = {
    "id": (
        "id",
        "id number",
        "idnumber",
        "student id",
        "student number",
        "matrikelnummer",
        "matrikel-nr.",
        "matrikelnr",
        "sis user id",
    ),
    "name": ("name", "full name", "student", "student name", "vollständiger name"),
    "first": ("first name", "given name", "vorname"),
    "last": ("last name", "surname", "family name", "nachname"),
    "email": ("email", "e-mail", "email address", "e-mail-adresse", "mail"),
    "login": ("login", "username", "sis login id", "benutzername", "anmeldename", "kennung"),
    "moodle": ("moodle",),
    "canvas": ("canvas",),
    "extra": ("extra", "extra time"),
}
MARKS = ((codecs.BOM_UTF16_LE, "utf-16"), (codecs.BOM_UTF16_BE, "utf-16"))
DELIMITERS = (",", ";", "\t")


def decoded(raw: bytes) -> str:
    """The characters: of UTF-8 with its mark or without, of UTF-16 with its mark, else of
    Windows-1252; a Fault where they are of none."""
    for mark, encoding in MARKS:
        if raw.startswith(mark):
            return raw.decode(encoding)
    try:
        return raw.decode("utf-8-sig")
    except UnicodeDecodeError:
        pass
    if b"\0" in raw:
        raise Fault("no text in UTF-8, UTF-16 or Windows-1252")
    try:
        return raw.decode("cp1252")
    except UnicodeDecodeError:
        raise Fault("no text in UTF-8, UTF-16 or Windows-1252") from None


def parted(text: str) -> tuple[str, str]:
    """What parts the cells, and the text without a line that says so (`sep=;`)."""
    first, _, rest = text.partition("\n")
    said = first.rstrip("\r").strip('"')
    if said.casefold().startswith("sep=") and len(said) == 5:
        return said[4], rest
    # The header has no cell with one of them in it.
    return max(DELIMITERS, key=first.count), text


def columns_of(header: Sequence[str]) -> dict[str, int]:
    """The columns by what they are for; a Fault where the id or the name is missing, or stands
    twice."""
    folded = [key(cell) for cell in header]
    found: dict[str, int] = {}
    for use, names in NAMES.items():
        name = next((name for name in names if name in folded), None)
        if name is None:
            continue
        if folded.count(name) > 1:
            raise Fault(
                f"the first line names the column {shown(name)} twice, and it should stand once"
            )
        found[use] = folded.index(name)
    if "name" in found:
        found.pop("first", None)
        found.pop("last", None)
    for use in ("id", "name"):
        has_parts = use == "name" and {"first", "last"} <= set(found)
        if use not in found and not has_parts:
            raise Fault(f"the first line has to name the columns, and {use} once among them")
    return found
