"""Which file is whose answer to which task.

The task of a file is the one that is told for all of them; else, where its comments `-- task T` name
two tasks or more, it is split at them; else that of its name, or the only task there is; else it is
split at the comment that names one.
"""
from __future__ import annotations

import re
from collections.abc import Iterable, Mapping, Sequence
from dataclasses import dataclass
from functools import partial

from classroom.base.errors import shown
from classroom.exercise import collected
from classroom.exercise.collected import OLDER, REFUSED, SAME, UNPLACED
from classroom.platforms import notebook
from classroom.platforms.handed import Handed
from classroom.platforms.html import text_of
from classroom.people.identity import composed, fault_of_id, key
from classroom.people.roster import ClassList
from classroom.platforms.task_names import ENDINGS, task_named
from classroom.sql.tokens import is_blank

EMPTY, NO_QUERY = "it is empty", "no query is in it"
SPLIT = r"^[ \t]*--[ \t]*task[ \t]+(\S+).*$"


@dataclass(frozen=True)
class Placed:
    """The answer of a student to a task."""

    task: str
    student: str  # the id, which names the file
    content: bytes
    handed: Handed
    listed: bool  # whether the class list has the student


@dataclass(frozen=True)
class NotPlaced:
    """A file, or a part of one, that is nobody's answer to anything, and why."""

    label: str
    why: str
    student: str = ""  # the id of who handed it in; empty where that is not known
    file: str = ""  # its name, as it was handed in
    instead: str = ""  # OLDER or SAME, where another file of the student counts in its place
    is_refused: bool = False  # it is not read

    @property
    def state(self) -> str:
        """As the list of what was collected has it."""
        if self.instead or self.is_refused:
            return self.instead or REFUSED
        return collected.EMPTY if self.why in (EMPTY, NO_QUERY) else UNPLACED

    @property
    def is_open(self) -> bool:
        """Whether somebody has to look at it."""
        return not self.instead


@dataclass(frozen=True)
class Rules:
    """By what files are placed."""

    tasks: Sequence[str]
    students: ClassList
    task: str | None = None  # that of all files
    pattern: re.Pattern[str] = re.compile(
        SPLIT, re.MULTILINE | re.IGNORECASE
    )  # its first group is the task


def placed(found: Iterable[Handed], rules: Rules) -> tuple[list[Placed], list[NotPlaced]]:
    """The answers, one for each student and task, in the order of the archive; and what could not
    be placed."""
    answers: dict[tuple[str, str], list[Placed]] = {}
    rest: list[NotPlaced] = []
    names = list(found)
    ids = _ids(names, rules.students)
    for handed in names:
        who = ids[handed.column, handed.number, handed.name]
        fault = handed.member.fault or _fault_of(handed)
        if isinstance(who, str) or fault:
            student = "" if isinstance(who, str) else who[0]
            why = fault or str(who)
            rest.append(
                NotPlaced(handed.member.label, why, student, handed.file, is_refused=bool(fault))
            )
            continue
        parts, faults = _parts(handed, rules)
        rest += [NotPlaced(handed.member.label, why, who[0], handed.file) for why in faults]
        for task, content in parts:
            answers.setdefault((task, key(who[0])), []).append(
                Placed(task, who[0], content, handed, who[1])
            )
    chosen = []
    for same in answers.values():
        last = _last(same)
        kept = last[-1]
        if len({one.content for one in last}) == 1:
            chosen.append(kept)
            rest += [passed_over(one, kept) for one in same if one is not kept]
        else:
            rest += map(partial(_in_doubt, last), last)
            rest += [passed_over(one, kept) for one in same if one not in last]
    return chosen, rest


def passed_over(one: Placed, kept: Placed) -> NotPlaced:
    """A file in whose place another one of the student counts."""
    instead = SAME if one.content == kept.content else OLDER
    why = f"{kept.handed.member.label} counts in its place for task {shown(one.task)}"
    return NotPlaced(one.handed.member.label, why, one.student, one.handed.file, instead)


def _ids(
    found: Sequence[Handed], students: ClassList
) -> Mapping[tuple[str, str, str], tuple[str, bool] | str]:
    """For each who handed something in the id, and whether the class list has it; or why there is
    none."""
    numbers: dict[str, set[tuple[str, str]]] = {}
    for handed in found:
        numbers.setdefault(key(handed.name), set()).add((handed.column, key(handed.number)))
    ids: dict[tuple[str, str, str], tuple[str, bool] | str] = {}
    for handed in found:
        pairs = ((handed.column, handed.number), *handed.more)
        known = next(filter(None, (students.known(*pair) for pair in pairs)), None)
        name = composed(handed.name)
        if known:
            made: tuple[str, bool] | str = (known.id, True)
        elif fault := fault_of_id(name):
            made = f"no name for a file: {fault}"
        elif students.with_id(name):
            made = f"the class list has the id {shown(name)} for somebody else"
        elif len(numbers[key(handed.name)]) > 1:
            made = (
                f"several have the name {shown(name)}: a class list with the column"
                f" {handed.column} tells them apart"
            )
        else:
            made = (name, False)
        ids[handed.column, handed.number, handed.name] = made
    return ids


def _parts(handed: Handed, rules: Rules) -> tuple[list[tuple[str, bytes]], list[str]]:
    """The tasks that a file answers, each with its answer; and what of it answers none, and why."""
    content = handed.member.content
    if handed.is_online_text:
        try:
            content = text_of(content.decode("utf-8", "replace")).encode()
        except ValueError as why:
            return [], [str(why)]
    if not content.strip():
        return [], [EMPTY]
    if handed.file.strip().casefold().endswith(notebook.ENDING):
        return _of_notebook(handed, rules)
    if rules.task is not None:
        return [(rules.task, content)], []
    text = _decoded(content)
    begins = list(rules.pattern.finditer(text))
    tasks = {key(task): task for task in rules.tasks}
    if len({key(_name_in(begin)) for begin in begins} & set(tasks)) < 2:
        names = [] if handed.is_online_text else [handed.file, *handed.others]
        named = next(filter(None, (task_named(name, rules.tasks) for name in names)), None)
        if named is None and len(rules.tasks) == 1:
            named = rules.tasks[0]
        if named is not None:
            is_empty = is_blank(text)
            return ([], [NO_QUERY]) if is_empty else ([(named, content)], [])
    return _split(text, begins, tasks)


def _of_notebook(handed: Handed, rules: Rules) -> tuple[list[tuple[str, bytes]], list[str]]:
    def task_of(name: str) -> str | None:
        return task_named(name, rules.tasks)

    names = (handed.file, *handed.others)
    only = rules.task or next(filter(None, map(task_of, names)), None)
    if only is None and len(rules.tasks) == 1:
        only = rules.tasks[0]
    made, faults = notebook.parts(handed.member.content, task_of, rules.pattern, only)
    return [(task, text.encode("utf-8", "replace")) for task, text in made], faults


# The first bytes of files that hold no text of a query.
KINDS = {
    b"%PDF": "a PDF file",
    b"PK\x03\x04": "a Word, a zip or another packed file",
    b"\xd0\xcf\x11\xe0": "a Word file",
    b"{\\rtf": "an RTF file",
    b"\x89PNG": "a picture",
    b"\xff\xd8\xff": "a picture",
    b"GIF8": "a picture",
}


def _fault_of(handed: Handed) -> str:
    """Why a file is no text of a query; empty where it may be one."""
    if handed.link:
        return "an address was handed in, and no file"
    for begin, kind in KINDS.items():
        if handed.member.content.startswith(begin):
            return f"it is {kind}, and no text of a query"
    if not handed.file.strip().casefold().endswith((*ENDINGS, notebook.ENDING)):
        return "no text of a query: its name ends in none of .sql, .txt and .ipynb"
    return ""


def _decoded(content: bytes) -> str:
    try:
        text = content.decode("utf-8-sig")
    except UnicodeDecodeError:
        text = content.decode(
            "utf-16" if content[:2] in (b"\xff\xfe", b"\xfe\xff") else "latin-1", "replace"
        )
    return text.replace("\r\n", "\n")


def _name_in(begin: re.Match[str]) -> str:
    return begin[1].rstrip(":.,;)")


def _split(
    text: str, begins: Sequence[re.Match[str]], tasks: Mapping[str, str]
) -> tuple[list[tuple[str, bytes]], list[str]]:
    """The parts of a text between the comments that begin answers: those that are clear, and of the
    others why they are not."""
    if not begins:
        return [], [
            "no task has its name, and no comment `-- task T` is in it; the tasks are"
            f" {shown(*tasks.values())}"
        ]
    faults = []
    before = text[: begins[0].start()]
    if not is_blank(before):
        line = before.count(chr(10)) + 1
        faults.append(f"a query stands before the comment of the first task, in line {line}")
    names = [tasks.get(key(_name_in(begin))) for begin in begins]
    parts: list[tuple[str, bytes]] = []
    for begin, end, task in zip(begins, [*begins[1:], None], names):
        part = text[begin.end() : end.start() if end else len(text)].strip("\n")
        if is_blank(part):
            continue
        if task is None:
            faults.append(f"a comment names the task {shown(begin[1])}, which is none")
        elif names.count(task) > 1:
            faults.append(f"two comments name the task {shown(task)}")
        else:
            parts.append((task, f"{part}\n".encode()))
    return parts, [*dict.fromkeys(faults)] or ([] if parts else [NO_QUERY])


def _rank(one: Placed) -> int:
    """Of two files for one task: a file of SQL, then one of text, then what was typed online."""
    if one.handed.is_online_text:
        return 0
    return 2 if one.handed.file.strip().casefold().endswith(".sql") else 1


def _last(same: Sequence[Placed]) -> list[Placed]:
    """The last of the answers of one student to one task, in the platform's own order; of those,
    the ones of the best kind. Where their texts differ, none of them is the last."""
    most = max(one.handed.order for one in same)
    last = [one for one in same if one.handed.order == most]
    if len({one.content for one in last}) > 1:
        best = max(map(_rank, last))
        last = [one for one in last if _rank(one) == best]
    return last


def _in_doubt(last: Sequence[Placed], one: Placed) -> NotPlaced:
    """One of several different answers, of which nothing says that it is the last."""
    others = shown(*(other.handed.member.label for other in last if other is not one))
    why = f"task {shown(one.task)} has {len(last)} different answers of {shown(one.student)}, and"
    why += f" nothing says which came last; the other is {others}"
    return NotPlaced(one.handed.member.label, why, one.student, one.handed.file)
