"""An archive as a whole: the files of a platform, with whose they are, zip files in them opened."""
from __future__ import annotations

import re
from collections.abc import Iterable, Sequence
from dataclasses import dataclass, replace
from functools import partial
from pathlib import Path

from classroom.base.errors import Fault, shown
from classroom.people.roster import ClassList
from classroom.platforms import file_names, folders, registry
from classroom.platforms.archive import Inside, Member, members
from classroom.platforms.handed import Handed, Reading, each

ZIP = ".zip"
# A Word file is a zip file, too, and has another name.
PACKED = b"PK\x03\x04"


@dataclass(frozen=True)
class How:
    """How an archive is to be read, as far as a teacher says it."""

    form: str | None = None
    pattern: re.Pattern[str] | None = None  # of paths, with the groups student and file
    by_name: bool = False  # a file's own name says whose it is
    assignment: str | None = None


def read_archive(
    source: Path, how: How, students: ClassList, tasks: Sequence[str]
) -> tuple[Reading, list[Member]]:
    """The files of an archive with whose they are, and those whose names can't be trusted. A Fault
    where it has no form, or several assignments."""
    found = list(members(source))
    named = [member for member in found if member.has_name]
    reading = _reading(named, how, students, tasks)
    reading.found = opened(of_assignment(reading, how.assignment))
    return reading, [member for member in found if not member.has_name]


def _reading(
    found: Sequence[Member], how: How, students: ClassList, tasks: Sequence[str]
) -> Reading:
    if how.pattern:
        return each(found, file_names.by_pattern(how.pattern))
    if how.by_name:
        return each(found, partial(_by_name, students=students, tasks=tasks))
    readable = [member for member in found if not member.fault]
    form = registry.BY_NAME[how.form] if how.form else registry.form_of(readable)
    reading = form.read(found)
    if form is folders.PLATFORM and students.students:
        at_top = [member for member in reading.others if len(member.path) == 1]
        more = each(at_top, partial(file_names.of_listed, students=students, tasks=tasks))
        known = {one.member.label for one in more.found}
        reading.found += more.found
        reading.others = [one for one in reading.others if one.label not in known]
    return reading


def _by_name(member: Member, students: ClassList, tasks: Sequence[str]) -> Handed | None:
    listed = file_names.of_listed(member, students, tasks)
    return listed or file_names.of_anybody(member, tasks)


def of_assignment(reading: Reading, wanted: str | None) -> list[Handed]:
    """The files of one assignment, where the platform names it; a Fault where there are several and
    none is said, or the one that is said is not there."""
    names = sorted({one.assignment for one in reading.found if one.assignment})
    if wanted is not None and names and wanted not in names:
        raise Fault(f"the archive has no assignment {shown(wanted)}, but {shown(*names)}")
    if len(names) > 1 and wanted is None:
        raise Fault(
            f"the archive has the assignments {shown(*names)}: --assignment NAME says which is this"
            " exercise"
        )
    if names:
        reading.notes.append(f"assignment: {shown(wanted or names[0])}")
    return [one for one in reading.found if not one.assignment or wanted in (None, one.assignment)]


def opened(found: Iterable[Handed]) -> list[Handed]:
    """The files, with those of a zip file in its place, which are its owner's."""
    inside = Inside()
    made = []
    for one in found:
        member = one.member
        is_zip = one.file.strip().casefold().endswith(ZIP) and member.content.startswith(PACKED)
        if is_zip and not member.fault:
            made += [
                replace(one, member=inner, file=inner.path[-1], others=(), is_online_text=False)
                for inner in inside.members(member)
            ]
        else:
            made.append(one)
    return made
