"""The file `exercise.toml` of an exercise: read whole, each key checked, before anything is
done."""
from __future__ import annotations

import math
import tomllib
from collections.abc import Callable, Iterable, Mapping
from dataclasses import dataclass, field, fields
from datetime import datetime
from pathlib import Path, PurePosixPath
from typing import Any
from zoneinfo import ZoneInfo, ZoneInfoNotFoundError

from classroom.base import files as reading
from classroom.base.errors import Fault, shown

FILE = "exercise.toml"
MOST_BYTES = 1_000_000


@dataclass(frozen=True)
class TaskSettings:
    """The keys of one task."""

    title: str = ""
    points: float = 1  # of a right answer
    question: str = "question.txt"  # a file in the folder of the task


@dataclass(frozen=True)
class LateRule:
    """What becomes of answers after `closes`."""

    grace: float = 0  # minutes that cost nothing
    minus: float = 0  # the part of a task's points that each day begun costs
    until: datetime | None = None  # after it nothing counts


@dataclass(frozen=True)
class Settings:
    """The keys of an exercise; None where one is not said and has no value of its own."""

    title: str = ""
    time: float | None = None  # seconds for an answer
    work: int | None = None
    conflicts: int | None = None
    engine: str | None = None  # "sqlite", or the connection of a scratch database
    engine_asker: str = ""  # the connection of the role that only reads
    tried: str = "right"
    duplicates: str = "report"
    order: str = "report"
    students: str = "class/students.csv"
    hints: int = 2  # the highest step
    hints_from: datetime | None = None  # moments have a zone
    opens: datetime | None = None
    closes: datetime | None = None
    after_close: str = "nothing"
    timezone: ZoneInfo | None = None  # in which pages show times; None: the machine's
    late: LateRule | None = None
    task: Mapping[str, TaskSettings] = field(default_factory=dict)  # by the names of tasks
    said: frozenset[str] = frozenset()  # the keys that the file has

    @property
    def last_moment(self) -> datetime | None:
        """Up to which answers are taken; None where there is no end."""
        return (self.late.until if self.late else None) or self.closes

    def of_task(self, name: str) -> TaskSettings:
        return self.task.get(name, TaskSettings())


def read(folder: Path, tasks: Iterable[str]) -> Settings:
    """The settings of the exercise in a folder that has these tasks; a Fault names the key that is
    wrong."""
    path = folder / FILE
    text = reading.bounded(path, MOST_BYTES)
    if text is None:
        return Settings()
    try:
        return settings_of(tomllib.loads(text.decode()), tasks)
    except UnicodeDecodeError:
        raise Fault(f"{shown(str(path))}: not UTF-8") from None
    except tomllib.TOMLDecodeError as fault:
        raise Fault(f"{shown(str(path))}: {shown(str(fault))}") from None
    except Fault as fault:
        raise Fault(f"{shown(str(path))}: {fault}") from None


def engine_of(folder: Path) -> str:
    """What the settings say of the engine, before anything else is known; empty where they say
    nothing or can't be read, which `read` tells."""
    try:
        found = tomllib.loads((reading.bounded(folder / FILE, MOST_BYTES) or b"").decode())
    except (Fault, ValueError):
        return ""
    return str(found.get("engine", ""))


def settings_of(found: Mapping[str, Any], tasks: Iterable[str]) -> Settings:
    """The settings of what a file says."""
    values = checked(found, {**EXERCISE, "task": table, "late": late_rule}, "")
    names = set(tasks)
    made = {}
    for name, said in values.pop("task", {}).items():
        key = f"task.{name}"
        if name not in names:
            raise Fault(f"{shown(key)}: there is no task {shown(name)}")
        made[name] = TaskSettings(**checked(table(said, key), TASK, f"{key}."))
    settings = Settings(**values, task=made, said=frozenset(found))
    if settings.opens and settings.closes and settings.closes <= settings.opens:
        raise Fault("closes: it closes before it opens")
    until = settings.late.until if settings.late else None
    if until and (settings.closes is None or until <= settings.closes):
        raise Fault("late.until: a moment after `closes` is wanted")
    return settings


def checked(
    found: Mapping[str, Any], known: Mapping[str, Callable[[Any, str], Any]], prefix: str
) -> dict[str, Any]:
    values = {}
    for key, value in found.items():
        if key not in known:
            raise Fault(f"{shown(prefix + key)}: there is no such key")
        values[key] = known[key](value, prefix + key)
    return values


def table(value: Any, key: str) -> Mapping[str, Any]:
    if not isinstance(value, dict):
        raise Fault(f"{shown(key)}: a table is wanted")
    return value


def late_rule(value: Any, key: str) -> LateRule:
    return LateRule(**checked(table(value, key), LATE, f"{key}."))


def text(value: Any, key: str) -> str:
    if not isinstance(value, str):
        raise Fault(f"{shown(key)}: a text is wanted")
    return value


def one_of(*choices: str) -> Callable[[Any, str], str]:
    def check(value: Any, key: str) -> str:
        if value not in choices or not isinstance(value, str):
            raise Fault(
                f"{shown(key)}: {' or '.join(map(repr, choices)).replace(chr(39), chr(34))} is"
                " wanted"
            )
        return value

    return check


def whole(least: int, most: int) -> Callable[[Any, str], int]:
    def check(value: Any, key: str) -> int:
        if type(value) is not int or not least <= value <= most:
            raise Fault(f"{shown(key)}: a whole number from {least} to {most} is wanted")
        return value

    return check


def number(least: float, most: float, noun: str) -> Callable[[Any, str], float]:
    def check(value: Any, key: str) -> float:
        if (
            type(value) not in (int, float)
            or not math.isfinite(value)
            or not least <= value <= most
        ):
            raise Fault(f"{shown(key)}: {noun} from {least:g} to {most:g} is wanted")
        return value  # type: ignore[no-any-return]

    return check


def moment(value: Any, key: str) -> datetime:
    if not isinstance(value, datetime) or value.tzinfo is None:
        raise Fault(f"{shown(key)}: a moment with its zone is wanted, as 2026-11-20T08:00:00+01:00")
    return value


def zone(value: Any, key: str) -> ZoneInfo:
    try:
        return ZoneInfo(text(value, key))
    except (ZoneInfoNotFoundError, ValueError, OSError):
        raise Fault(f"{shown(key)}: the name of a time zone is wanted, as Europe/Berlin") from None


def path(value: Any, key: str) -> str:
    """Of a file below the folder: it names nothing outside of it."""
    said = PurePosixPath(text(value, key))
    if not said.parts or said.is_absolute() or ".." in said.parts or "\0" in str(said):
        raise Fault(f"{shown(key)}: a path below the folder is wanted")
    return str(said)


EXERCISE: dict[str, Callable[[Any, str], Any]] = {
    "title": text,
    "time": number(0.001, 1e6, "a number of seconds"),
    # As `ratest` takes them.
    "work": whole(1, 32_000_000),
    "conflicts": whole(1, 10_000_000),
    "engine": text,
    "engine_asker": text,
    "tried": one_of("right", "by hand"),
    "duplicates": one_of("ignore", "report", "wrong"),
    "order": one_of("ignore", "report", "wrong"),
    "students": path,
    "hints": whole(0, 3),
    "hints_from": moment,
    "opens": moment,
    "closes": moment,
    "after_close": one_of("reference", "nothing"),
    "timezone": zone,
}
TASK: dict[str, Callable[[Any, str], Any]] = {
    "title": text,
    "points": number(0, 1e6, "a number"),
    "question": path,
}
LATE: dict[str, Callable[[Any, str], Any]] = {
    "grace": number(0, 1e6, "a number of minutes"),
    "minus": number(0, 1, "a part of the points"),
    "until": moment,
}
assert {*EXERCISE, "task", "late", "said"} == {one.name for one in fields(Settings)}
assert set(LATE) == {one.name for one in fields(LateRule)}
assert set(TASK) == {one.name for one in fields(TaskSettings)}
