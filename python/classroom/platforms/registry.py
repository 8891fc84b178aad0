"""The platforms that are known: a new one is a module beside these and a line here."""
from __future__ import annotations

from collections import Counter
from collections.abc import Sequence

from classroom.base.errors import Fault
from classroom.platforms import canvas, folders, gradescope, moodle, nbgrader
from classroom.platforms.archive import Member
from classroom.platforms.platform import Platform
from ratest.draw import counted

# The first that recognises a file is the one that counts; `folders` takes what no other knows.
PLATFORMS = (
    moodle.PLATFORM,
    canvas.PLATFORM,
    gradescope.PLATFORM,
    nbgrader.PLATFORM,
    folders.PLATFORM,
)
BY_NAME = {platform.name: platform for platform in PLATFORMS}
# Of ten files, so many have the form of an archive.
MOST, OF = 9, 10


def form_of(members: Sequence[Member]) -> Platform:
    """The platform of an archive, by the names of nearly all of its files; a Fault where no form is
    that of nine of ten, so that no single name decides for all."""
    votes = Counter(
        form_of_one(member).name
        for member in members
        if not any(platform.is_own(member) for platform in PLATFORMS)
    )
    if not votes:
        return folders.PLATFORM
    form, count = votes.most_common(1)[0]
    if count * OF < MOST * votes.total():
        told = ", ".join(f"{form}: {counted(count, 'file')}" for form, count in votes.most_common())
        raise Fault(f"the names in the archive have no one form ({told}): --form says which it is")
    return BY_NAME[form]


def form_of_one(member: Member) -> Platform:
    """The form that a file has by its own name."""
    return next(platform for platform in PLATFORMS if platform.recognises(member))
