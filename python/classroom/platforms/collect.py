"""Writes answers to their places in an exercise, TASK/answers/ID.sql, and where each came from.

An answer that `collect` wrote and nobody edited is replaced by a later one, and kept in
class/older/TASK/ID.DIGEST.sql. One that somebody edited, or put there by hand, is only written over
where that is wanted.
"""
from __future__ import annotations

import hashlib
import os
from collections.abc import Mapping, Sequence
from dataclasses import dataclass, field, replace
from pathlib import Path

from classroom.base.errors import Fault, shown
from classroom.base.files import write
from classroom.exercise.collected import (
    IN_DOUBT,
    LATE,
    PLACED,
    Collected,
    read_collected,
    write_collected,
)
from classroom.platforms.place import NotPlaced, Placed


# Where replaced answers are kept, below the exercise.
OLDER = Path("class/older")


@dataclass
class Done:
    """What was done with the answers."""

    new: int = 0
    replaced: int = 0
    same: int = 0
    kept: list[Placed] = field(default_factory=list)  # edited ones are there, which were left
    gone: list[str] = field(default_factory=list)  # were in this archive once


def collect(
    folder: Path,
    places: Mapping[str, Path],
    answers: Sequence[Placed],
    rest: Sequence[NotPlaced],
    source: str,
    overwrites: bool,
    writes: bool = True,
) -> Done:
    """Writes the answers into the folders of the tasks, `places`, and notes where they came from,
    and what could not be placed. Where it doesn't write it tells what it would do."""
    done = Done()
    # What the same archive left open before is asked anew.
    listed = {
        name: line
        for name, line in read_collected(folder).items()
        if line.state == PLACED or line.source != source
    }
    for answer in answers:
        path = _place(places[answer.task], answer)
        try:
            there: bytes | None = path.read_bytes()
        except FileNotFoundError:
            there = None
        if there is not None and there != answer.content:
            before = listed.get(line_of(answer, source).of)
            if not (overwrites or before and before.sha256 == digest(there)):
                done.kept.append(answer)
                continue
            if writes:
                keep_older(folder, answer, there)
        done.new += there is None
        done.same += there == answer.content
        done.replaced += there is not None and there != answer.content
        if writes:
            if there != answer.content:
                path.parent.mkdir(exist_ok=True)
                write(path, answer.content)
            line = line_of(answer, source)
            listed[line.of] = line
    for one in rest:
        line = Collected("", one.student, source, one.label, state=one.state, why=one.why)
        before_it = listed.get(line.of)
        if before_it and before_it.source == source and one.why not in before_it.why:
            line = replace(line, why=f"{before_it.why}; {one.why}", state=worst(before_it, line))
        listed[line.of] = line
    members = {answer.handed.member.label for answer in answers} | {one.label for one in rest}
    done.gone += [
        line.member
        for line in listed.values()
        if line.state == PLACED and line.source == source and line.member not in members
    ]
    if writes:
        write_collected(folder, listed.values())
    return done


def worst(*lines: Collected) -> str:
    """The state of a file of which several parts are no answer: one that is in doubt, where any
    is."""
    states = [line.state for line in lines]
    return next((state for state in IN_DOUBT if state in states), states[0])


def keep_older(folder: Path, answer: Placed, text: bytes) -> None:
    """Keeps the text of an answer that is replaced."""
    place = folder / OLDER / answer.task
    for there in (folder / OLDER, place):
        if there.is_symlink():
            raise Fault(f"{shown(os.fspath(there))}: a link, which is not followed")
    place.mkdir(parents=True, exist_ok=True)
    write(place / f"{answer.student}.{digest(text)[:12]}.sql", text)


def _place(task: Path, answer: Placed) -> Path:
    """The file of an answer; a Fault where its folder, or the file that is there, is a link."""
    path = task / "answers" / f"{answer.student}.sql"
    for there in (path.parent, path):
        if there.is_symlink():
            raise Fault(f"{shown(os.fspath(there))}: a link, which is not followed")
    return path


def line_of(answer: Placed, source: str) -> Collected:
    return Collected(
        answer.task,
        answer.student,
        source,
        answer.handed.member.label,
        answer.handed.time or (LATE if answer.handed.is_late else ""),
        digest(answer.content),
    )


def digest(content: bytes) -> str:
    return hashlib.sha256(content).hexdigest()
