"""Who is who: one key for a name, whichever system wrote it.

Nothing else is compared: not the bytes of a file's name, nor those of a cell of the class list.
"""
from __future__ import annotations

import unicodedata

# A name of a file has at most 255 bytes, of which four are `.sql` and some those of a name
# meanwhile.
MOST_ID = 200
# Zero-width joiners, which Persian and Indian names have.
JOINERS = "\u200c\u200d"
# Signs that turn the order of a text round.
TURNS = "\u202a\u202b\u202c\u202d\u202e\u2066\u2067\u2068\u2069\u200e\u200f"


def composed(name: str) -> str:
    """The name with each letter and its marks as one sign, and each run of blanks as one.

    macOS writes ö as o and a mark; a Japanese name may have an ideographic space.
    """
    return " ".join(unicodedata.normalize("NFC", name).split())


def key(name: str) -> str:
    """What is compared: two names are those of one student where their keys are equal."""
    return unicodedata.normalize("NFC", composed(name).casefold())


def has_bad_sign(name: str) -> bool:
    """Whether a sign is in it that no name has: of control, without a meaning, or one that turns
    the text round."""
    return any(
        sign in TURNS
        or (unicodedata.category(sign) in ("Cc", "Cf", "Cs", "Co", "Cn", "Zl", "Zp"))
        and sign not in JOINERS
        for sign in name
    )


def fault_of_id(name: str) -> str:
    """Why no file of an answer can have this name; empty where one can."""
    if not name:
        return "it is empty"
    if name.startswith("."):
        return "it begins with a dot"
    if "/" in name or "\\" in name or has_bad_sign(name):
        return "it has a sign that no name of a file may have"
    return f"it has more than {MOST_ID} bytes" if len(name.encode()) > MOST_ID else ""
