"""What a student is told of a repair, in steps: the clause, the place, the kind of mistake.

Never the changed text, and never a part of the reference. A place is one of the student's own text,
and no sentence has a word of SQL but those that are in this text. """
from __future__ import annotations

from dataclasses import dataclass

from classroom.edits.change import Kind
from classroom.edits.clauses import FROM, WHOLE, Clause, Clauses
from classroom.edits.edits import Edit
from classroom.sql.spans import Span
from classroom.hints.repairs import Found

CLAUSE, PLACE, KIND = 1, 2, 3  # the steps
ADDED = (Kind.CONDITION_MISSING, Kind.JOIN_CONDITION_MISSING, Kind.WHERE)
SENTENCES = {
    Kind.COMPARISON: "Look at the comparison.",
    Kind.CONSTANT: "Look at the constant.",
    Kind.COLUMN: "Another column is meant.",
    Kind.NULL: "Think of rows in which a value is missing.",
    Kind.CONNECTIVE: "Look at how the conditions are put together.",
    Kind.NEGATION: "Look at whether this is to hold or to be false.",
    Kind.JOIN_CONDITION_MISSING: "A condition that joins two tables is missing.",
    Kind.CONDITION_MISSING: "A condition is missing.",
    Kind.CONDITION_TOO_MANY: "There is a condition too many.",
    Kind.CONDITION: "Another condition is meant.",
    Kind.WHERE: "The conditions are others.",
    Kind.JOIN: "Look at how the rows of two tables are brought together.",
    Kind.TABLE: "Another table is meant.",
    Kind.TABLE_MISSING: "A table is missing.",
    Kind.TABLE_TOO_MANY: "There is a table too many.",
    Kind.SET: "Look at how the two parts of the query are put together.",
    Kind.OPERAND_MISSING: "A part of the query is missing.",
    Kind.OPERAND_TOO_MANY: "There is a part of the query too many.",
    Kind.SELECT: "Look at which columns are shown, in which order.",
    Kind.EMPTY: "Look at why there are no rows.",
    Kind.DISTINCT: "Look at rows that come more than once.",
    Kind.AGGREGATE: "Look at what is counted or computed.",
    Kind.GROUP: "Look at the groups.",
    Kind.HAVING: "Look at which groups are kept.",
    Kind.ORDER: "Look at the order of the rows.",
}
SOME, NONE = (
    "You ask whether some row exists; ask that none does.",
    "You ask that no row exists; ask whether some does.",
)
SOME_ROW, NO_ROW = (
    "You ask for some row; ask that there is none.",
    "You ask that there is no row; ask for some.",
)
PROVED = (
    "One change in {where} is enough: with it your query answers rightly, apart from duplicates and"
    " order, on every part of these rows."
)
TRIED = (
    "One change in {where} is enough, as far as was tried: with it your query answered rightly on"
    " {count} parts of these rows."
)
OTHERS = "There are other places where one change would do."


@dataclass(frozen=True)
class Hint:
    """What one step tells."""

    step: int
    text: str
    place: Span | None = None  # in the student's text, by characters


def highest(found: Found) -> int:
    """The highest step that can be told: without a place of the own text, or without a guard, the
    clause alone."""
    if found.best is None:
        return 0
    return KIND if found.is_guarded and found.query.is_own else CLAUSE


def hints(found: Found, most: int) -> list[Hint]:
    """The steps up to `most`, as far as there are some."""
    best = found.best
    if best is None:
        return []
    clauses = Clauses(found.query)
    sentence = (
        TRIED.format(where=where(best, clauses), count=found.tried)
        if found.tried
        else PROVED.format(where=where(best, clauses))
    )
    several = f" {OTHERS}" if has_others(found) else ""
    steps = [
        Hint(CLAUSE, f"{sentence}{several}"),
        Hint(PLACE, "Here:", best.place),
        Hint(KIND, sentence_of(best, found)),
    ]
    return steps[: min(most, highest(found))]


def where(edit: Edit, clauses: Clauses) -> str:
    """The clause in words. A condition that is to be added where there is none is not said to be in
    FROM."""
    clause = edit.clause
    if edit.kind in ADDED and clause.name == FROM:
        clause = Clause(WHOLE, clause.number, clause.depth)
    return clauses.words(clause)


def has_others(found: Found) -> bool:
    best = found.best
    return best is not None and any(apart(edit.place, best.place) for edit in found.edits)


def apart(one: Span, other: Span) -> bool:
    return one.end <= other.begin or other.end <= one.begin


def sentence_of(edit: Edit, found: Found) -> str:
    if edit.kind is not Kind.QUANTIFIER:
        return SENTENCES[edit.kind]
    own = found.query.text[edit.place.begin : edit.place.end].lower()
    was_negated = "not" in own.split("(")[0].split()
    if "exists" in own:
        return NONE if was_negated else SOME
    return NO_ROW if was_negated else SOME_ROW
