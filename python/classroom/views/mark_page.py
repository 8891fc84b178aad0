"""What the page of `classroom mark` shows of a group of answers, or of one of them."""
from __future__ import annotations

from collections.abc import Mapping, Sequence
from dataclasses import dataclass

from classroom.hints import steps_shown
from classroom.hints.mistake import Mistake, Step
from classroom.marks import hand
from classroom.marks.gradebook import Gradebook, cell
from classroom.marks.hand import Line
from classroom.marks.mark import MARKED, About
from classroom.marks.mark import shown as shown_points
from classroom.marks.mark_groups import Group, Member, noun
from classroom.people.identity import key
from classroom.verdict import witness
from classroom.views import for_teacher, outcomes
from classroom.views.draw import Drawing, counted
from classroom.views.for_class import Text
from ratest.places import Place, place_of

MOST_TEXTS = 50
MOST_TYPED = 9  # each has a digit as its key


@dataclass(frozen=True)
class Typed:
    """What a line of class/marks.csv says, as it is typed."""

    points: str = ""
    comment: str = ""
    rule: str = ""
    who: str = ""  # who wrote it and when


@dataclass(frozen=True)
class Row:
    """One answer of a group."""

    name: str
    points: str
    most: str
    decided: str  # by what
    is_open: bool
    late: str


@dataclass(frozen=True)
class Shown:
    """A group, or one answer of it where `answer` is its number from 1."""

    task: str
    most: str
    answer: int
    name: str  # of the answer
    kind: str
    words: str
    common: str  # what the answers have in common
    told: str
    printed: str
    text: str | None  # None where there is none
    place: Place | None  # in it
    texts: tuple[Text, ...]  # the others of the group
    left: int  # further ones, which are not shown
    drawing: Drawing | None
    reference: str
    repair: Text | None
    rows: tuple[Row, ...]
    line: Typed
    typed: tuple[Typed, ...]  # in this task before, the most frequent first
    earlier: tuple[Typed, ...]  # marks for earlier texts of these answers
    has_line: bool

    @property
    def open(self) -> int:
        return sum(row.is_open for row in self.rows)


def shown(
    book: Gradebook,
    group: Group,
    number: int,
    line: Line | None,
    lines: Sequence[Line],
    mistakes: Mapping[str, Mistake],
    names: bool,
) -> Shown:
    """`number` is that of one answer, 0 for the group; `line` is the one about it, `lines` are
    all; `mistakes` are those of answers, by the keys of their records."""
    members = (group.members[number - 1],) if number else group.members
    first = members[0]
    of = first.of
    mistake = mistakes.get(of.record) if of else None
    text, place = text_and_place(first, mistake)
    others = other_texts(members)
    at = book.given.tasks.index(first.task)
    earlier = (
        book.earlier.get((first.task.label, key(one.student)))
        for one in members
        if (line is None or line.given.about != About.STUDENT)
    )
    return Shown(
        first.task.title,
        shown_points(book.most_by_task[at]),
        number,
        name_of(first, number or 1, names) if number or group.about == About.STUDENT else "",
        outcomes.css(of) if of else "",
        outcomes.whole_words(of) if of else "nothing was handed in that could be put to the task",
        "" if number else common(group, mistake),
        outcomes.told(of) if of else "",
        outcomes.printed_of(of) if of else "",
        text,
        place,
        others[:MOST_TEXTS],
        max(0, len(others) - MOST_TEXTS),
        outcomes.drawing_of(of, book.given.tables) if of else None,
        for_teacher.references_of(first.task),
        repair_of(mistake),
        tuple(
            row(book, one, at, names)
            for at, one in enumerate(group.members, 1)
            if number in (0, at)
        ),
        typed(line),
        typed_before(first.task.label, lines),
        tuple(typed(one) for one in earlier if one),
        line is not None,
    )


def name_of(member: Member, number: int, names: bool) -> str:
    return member.student if names else f"answer {number}"


def common(group: Group, mistake: Mistake | None) -> str:
    if group.about == About.MISTAKE:
        tried = " (tried, not proved)" if mistake and mistake.is_tried else ""
        where = f"; its place: {mistake.where}" if mistake and mistake.where else ""
        return f"The mistake: {group.value}{tried}{where}."
    return "" if group.about == About.STUDENT else f"They have the same {noun(group.about)}."


def text_and_place(member: Member, mistake: Mistake | None) -> tuple[str | None, Place | None]:
    """The text of an answer, with the place of its mistake, or at which it is refused."""
    of = member.of
    if of is None or of.answer.fault:
        return None, None
    query = of.answer.text.query.decode("utf-8", "replace")
    place = place_of_mistake(mistake, query)
    if place is None and isinstance(of.outcome, witness.Refused) and not of.is_tried:
        if of.outcome.place is not None and of.outcome.part == "query 2":
            place = place_of(query, of.outcome.place)
    return outcomes.text_of(of.answer.text.whole), place


def place_of_mistake(mistake: Mistake | None, query: str) -> Place | None:
    if mistake is None:
        return None
    steps = [*mistake.steps, *(Step(0, "", one.begin, one.end) for one in mistake.repairs[:1])]
    places = (steps_shown.place_of(step, query) for step in reversed(steps))
    return next(filter(None, places), None)


def other_texts(members: Sequence[Member]) -> tuple[Text, ...]:
    """Each text but the first, the most frequent first."""
    found: dict[bytes, int] = {}
    for member in members:
        if member.of and not member.of.answer.fault:
            text = member.of.answer.text.whole
            found[text] = found.get(text, 0) + 1
    rest = list(found.items())[1:]
    return tuple(
        Text(counted(count, "answer"), outcomes.text_of(text))
        for text, count in sorted(rest, key=lambda item: -item[1])
    )


def repair_of(mistake: Mistake | None) -> Text | None:
    if mistake is None or not mistake.repairs:
        return None
    tried = ", tried" if mistake.is_tried else ""
    return Text(f"With {mistake.repairs[0].mistake}{tried}", mistake.repairs[0].text)


def row(book: Gradebook, member: Member, number: int, names: bool) -> Row:
    of = member.of
    mark = member.mark
    lines = book.lines.get((of.task.name, of.answer.name), ()) if of else ()
    decided = mark.by
    if lines:
        about = lines[0].given.about
        decided = "its own mark" if about == About.STUDENT else f"the mark of the {noun(about)}"
    elif mark.by == MARKED:
        decided = "its own mark"
    return Row(
        name_of(member, number, names),
        cell(mark),
        shown_points(mark.most),
        decided,
        mark.is_open,
        mark.late,
    )


def typed(line: Line | None) -> Typed:
    if line is None:
        return Typed()
    at = hand.COLUMNS.index("points")
    who = ", ".join(filter(None, (line.by, line.time)))
    return Typed(line.cells[at], line.given.comment, line.given.rule.value, who)


def typed_before(task: str, lines: Sequence[Line]) -> tuple[Typed, ...]:
    """The points with comments of a task."""
    found: dict[Typed, int] = {}
    for line in lines:
        if line.task == task and line.given.comment:
            at = hand.COLUMNS.index("points")
            one = Typed(line.cells[at], line.given.comment)
            found[one] = found.get(one, 0) + 1
    return tuple(sorted(found, key=lambda one: -found[one])[:MOST_TYPED])
