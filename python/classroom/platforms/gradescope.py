"""Gradescope: "Export Submissions", and the `results.json` of an autograder's run.

    assignment_1_export/submission_123/FILE
    assignment_1_export/submission_metadata.yml      by submission: its submitters, with name, sid
                                                     and e-mail, and the moment; the platform's own

Each submitter of a group has handed its files in.

Source: Gradescope's documentation, "Autograder Specifications"; the export from memory.
"""
from __future__ import annotations

import json
import re
from collections.abc import Iterator, Mapping, Sequence

from classroom.base.errors import Fault, shown
from classroom.marks.mark import ZERO, number
from classroom.platforms import yaml_lists
from classroom.platforms.archive import Member
from classroom.platforms.back import Back, Made, Wanted
from classroom.platforms.handed import Handed, Reading
from classroom.platforms.nbgrader import moment
from classroom.platforms.platform import Platform
from classroom.platforms.yaml_lists import mapping, text
from classroom.views import markdown

NAME = "gradescope"
METADATA = "submission_metadata.yml"
SUBMISSION = re.compile(r"submission_[0-9]+")
VISIBILITIES = ("visible", "after_due_date", "after_published", "hidden")


def place_of(path: tuple[str, ...]) -> int:
    """Which part of a path names the submission: the first, or the one below the folder at the top;
    -1 where none does."""
    return next((at for at, part in enumerate(path[:2]) if SUBMISSION.fullmatch(part)), -1)


def recognises(member: Member) -> bool:
    return 0 <= place_of(member.path) < len(member.path) - 1


def is_own(member: Member) -> bool:
    return member.path[-1] == METADATA and len(member.path) <= 2 and not recognises(member)


def read(members: Sequence[Member]) -> Reading:
    """A Fault where the list of submissions is not there, or can't be read."""
    own = next((member for member in members if is_own(member)), None)
    if own is None:
        raise Fault(f"the archive has no {METADATA}, which says whose each submission is")
    try:
        submissions = mapping(yaml_lists.read(own.content)) if not own.fault else {}
    except Fault as fault:
        raise Fault(f"{shown(own.label)}: {fault}") from None
    reading = Reading()
    for member in members:
        if member is own:
            continue
        at = place_of(member.path)
        entry = mapping(submissions.get(member.path[at])) if recognises(member) else {}
        found = list(handed(member, entry))
        reading.found += found
        if not found:
            reading.others.append(member)
    return reading


def handed(member: Member, entry: Mapping[str, object]) -> Iterator[Handed]:
    """The file for each of its submitters."""
    submitters = entry.get("submitters")
    for one in map(mapping, submitters if isinstance(submitters, list) else ()):
        name, sid, mail = (text(one.get(part)).strip() for part in ("name", "sid", "email"))
        known = sid or mail or name
        if known:
            yield Handed(
                member,
                "id",
                known,
                known,
                member.path[-1],
                time=moment(text(entry.get("created_at"))),
                more=(("id", mail),),
            )


def table(backs: Sequence[Back], wanted: Wanted) -> Made:
    """The score, and a test a task with its output as Markdown; one that is graded by hand has no
    score."""
    if len(backs) != 1:
        raise Fault(
            f"gradescope: the autograder grades one student at a time, and here are {len(backs)}"
        )
    tests = []
    own = backs[0].of
    for place, (part, of, mark) in enumerate(zip(backs[0].sheet.parts, own.answers, own.marks), 1):
        test: dict[str, object] = {
            "name": f"Task {part.title}",
            "number": str(place),
            "output": markdown.part_of(part).lstrip(),
            "output_format": "md",
            "visibility": wanted.visibility,
        }
        if mark and not mark.is_open:
            test["decided_by"] = mark.by
        elif of:
            test["decided_by"] = of.decided_by
        if not mark or mark.points is not None:
            test |= {
                "score": number(mark.points if mark and mark.points is not None else ZERO),
                "max_score": number(part.most),
                "status": "passed" if mark and mark.is_right else "failed",
            }
        tests.append(test)
    content = json.dumps({"score": number(own.points), "tests": tests}, indent=1)
    return Made(f"{content}\n".encode("ascii"))


PLATFORM = Platform(
    NAME,
    "Gradescope",
    ("assignment_1_export/submission_123/FILE.sql", METADATA),
    "from memory; `results.json` its documentation",
    recognises,
    read,
    is_own,
    table=table,
    table_file="gradescope.json",
    table_holds="the `results.json` of one student",
)
