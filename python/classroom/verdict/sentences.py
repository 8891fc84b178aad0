"""What is told of a tried verdict, in the same words wherever it is shown."""
from __future__ import annotations

from collections.abc import Iterable, Sequence

from classroom.sql.schema import literal
from classroom.verdict.compare import COLUMNS, DUPLICATES, FAILURE, LEFT_OPEN, ORDER, ROWS
from classroom.exercise.cells import Cells
from classroom.verdict.decision import Note, NoteKind
from classroom.verdict.verdict import (
    ALL,
    EACH,
    JOINS,
    Cause,
    Differs,
    Doubt,
    NoDifference,
    NotDetermined,
    Refusal,
    Remark,
    Side,
    Verdict,
    WitnessRow,
)
from classroom.verdict.witness import Kept

DIFFERS, NO_DIFFERENCE, NOT_DETERMINED = "differs", "no difference found", "not determined"
TRIED = "A database found this by trying ({engine}); it is not proved."
MOST_ROWS = 6  # that are named of a doubt
MOST_SHOWN = 100  # rows of an answer in a text
KINDS = {
    COLUMNS: "other columns",
    FAILURE: "one of the queries fails",
    ROWS: "other rows",
    DUPLICATES: "the same rows another number of times",
    ORDER: "the same rows in another order",
    LEFT_OPEN: "the same rows in an order that nothing in the answer asks for",
}


def least(of: Differs) -> str:
    """By what it is known that no smaller part differs, if it is."""
    if not of.kept:
        return "They differ without any row."
    if of.least == ALL:
        return f"No smaller lawful part of the rows differs: {every(of.parts)} tried."
    if of.least == JOINS:
        return (
            "No smaller part differs:"
            f" {every(of.parts, ' that joins of the queries can tell apart')} tried."
        )
    if of.least == EACH:
        return "Without any one of these rows the answers are the same; fewer may do."
    return "Fewer rows may do."


def every(count: int, which: str = "") -> str:
    return f"the only one{which} was" if count == 1 else f"all {count:,}{which} were"


def tried_on(of: NoDifference) -> str:
    """On what no difference was found."""
    if of.lawful:
        return f"The answers are the same in all {of.lawful:,} lawful parts of these rows."
    told = f"The answers are the same on all rows and on {of.random:,} random lawful parts"
    if of.below > 1:
        apart = " that joins of the queries can tell apart" if of.joins else ""
        told = (
            told.replace(" and on ", ", on ")
            + f", and on all parts{apart} up to {of.below - 1} rows"
        )
    return f"{told}."


def not_determined(of: NotDetermined) -> str:
    which = (
        "both queries return"
        if of.reference and of.answer
        else "the reference returns"
        if of.reference
        else "the answer returns"
    )
    return f"What {which} depends on the order in which the rows are stored."


def remark(of: Remark, tells_rows: bool = True) -> str:
    """As `returns Ann twice where the reference returns her once`, in words that fit any row."""
    if of.difference not in (DUPLICATES, ORDER):
        return "over the CSV files; the database with its own types answers otherwise"
    if of.is_left_open:
        return "returns the same rows in an order that nothing in it asks for"
    if of.difference == ORDER:
        return "returns the same rows in another order"
    if of.line is None or not tells_rows:
        return "returns a row another number of times"
    return (
        f"returns {row(of.line.cells)} {times(of.line.answer)} where the reference returns it "
        f"{times(of.line.reference)}"
    )


def rows_named(rows: Sequence[WitnessRow | Kept]) -> str:
    """As `the rows bar 1, beer 2 and others`."""
    named = ", ".join(f"{row.table} {row.number}" for row in rows[:MOST_ROWS])
    more = " and others" if len(rows) > MOST_ROWS else ""
    return f"the rows {named}{more}" if named else "no rows"


def doubt(of: Doubt) -> str:
    """What a teacher is told of a reference, in words behind its name."""
    on = rows_named(of.rows)
    if of.failure:
        return f"fails on {on}: {of.failure}; such rows tell nothing of an answer"
    advice = f"; with {of.keys} as last keys of its ORDER BY it is determined" if of.keys else ""
    return f"has ties, for example on {on}; such rows tell nothing of an answer{advice}"


def doubts(found: Iterable[tuple[str, Verdict | None]]) -> list[str]:
    """What trials showed of references alone, of each file with the fewest rows: its ties, and that
    it fails."""
    least: dict[tuple[str, bool], Doubt] = {}
    for source, verdict in found:
        for of in verdict.doubts if verdict else ():
            known = least.get((source, bool(of.failure)))
            if known is None or len(of.rows) < len(known.rows):
                least[source, bool(of.failure)] = of
    return [f"{source} {doubt(of)}" for (source, _), of in least.items()]


def row(cells: Cells) -> str:
    texts = [
        "NULL" if value is None else value if isinstance(value, str) else str(value)
        for value in cells
    ]
    return texts[0] if len(texts) == 1 else f"({', '.join(texts)})"


def times(count: int) -> str:
    return {0: "not at all", 1: "once", 2: "twice"}.get(count, f"{count} times")


def failure(of: Differs, tells_all: bool = True) -> str:
    """Which query the engine can't answer, and why; empty where it answers both. Without
    `tells_all` not what it says of the reference, which may name what stands in it."""
    told = [
        fails(name, side, shows)
        for name, side, shows in (
            ("the reference", of.reference, tells_all),
            ("the answer", of.answer, True),
        )
        if side.failure
    ]
    return "; ".join(told)


def fails(name: str, of: Side, shows: bool) -> str:
    return f"{name} fails: {of.failure}" if shows else f"{name} fails"


def text(of: Verdict, tells_all: bool = True) -> str:
    """A verdict in lines, to be read by people; without `tells_all` by students."""
    outcome = of.outcome
    if isinstance(outcome, Differs):
        lines = [
            f"{DIFFERS} (tried, {of.engine}): {KINDS[outcome.how]}",
            f"rows: {len(outcome.kept)}",
        ]
        lines += [f"{kept.table} {kept.number}: {listed(kept.cells)}" for kept in outcome.kept]
        lines += [
            *side("the reference", outcome.reference, tells_all),
            *side("the answer", outcome.answer),
            least(outcome),
        ]
    elif isinstance(outcome, NoDifference):
        lines = [f"{NO_DIFFERENCE} (tried, {of.engine})", tried_on(outcome)]
    elif isinstance(outcome, NotDetermined):
        lines = [f"{NOT_DETERMINED} (tried, {of.engine})", not_determined(outcome)]
    else:
        lines = [
            f"{'the reference' if outcome.is_reference else 'the answer'}:"
            f" {refusal(outcome, of.engine)}"
        ]
    return "\n".join([*lines, *map(remark, of.remarks)]) + "\n"


def note(of: Note, tells_rows: bool = True) -> str:
    """What is remarked on an answer, for the teacher; `tells_rows` as in `remark`."""
    value = of.value
    if isinstance(value, Remark):
        return BEGINS[of.kind] + remark(value, tells_rows)
    if of.kind == NoteKind.DIFFERENCE:
        return KINDS[str(value)]
    return NOTES[of.kind].format(value=value)


BEGINS = {
    NoteKind.SLIGHT_AGREES: "agrees as a set; ",
    NoteKind.SLIGHT_SAME: "the same as a set; ",
    NoteKind.OTHERWISE: "agrees ",
}
NOTES = {
    NoteKind.PERHAPS_FEWER: "perhaps on fewer rows",
    NoteKind.OTHER_COLUMNS: "other columns",
    NoteKind.TEXT: "{value}",
    NoteKind.OTHER_REFERENCE: "compared with {value}",
    NoteKind.NOT_LOOKED: "agrees as a set; no database looked at {value}, which counts as wrong",
}
REFUSALS = {
    Cause.SYNTAX: "{message}",
    Cause.NAME: "{message}",
    Cause.DIALECT: "{dialect} reads it, and {engine} doesn't: {message}",
    Cause.HELD: "{engine} tried rows without a name that the database has: {message}",
    Cause.UNSUPPORTED: "{engine} doesn't answer it: {message}",
    Cause.BARRED: "{engine} doesn't try it: {message}",
    Cause.LIMIT: "{engine}: passes the limit of {message}",
}


def refusal(of: Refusal, engine: str) -> str:
    """Why a query has no verdict of an engine."""
    return REFUSALS[of.cause].format(engine=engine, message=of.message, dialect=of.dialect)


def side(name: str, of: Side, shows: bool = True) -> list[str]:
    if of.failure:
        return [fails(name, of, shows)]
    rest = len(of.lines) - MOST_SHOWN
    more = [f"  and {rest:,} more"] if rest > 0 else []
    return [
        f"{name}: {len(of.lines)}",
        *(f"  {listed(line)}" for line in of.lines[:MOST_SHOWN]),
        *more,
    ]


def listed(cells: Cells) -> str:
    return ", ".join(
        literal(value) if value is None or isinstance(value, (int, str)) else str(value)
        for value in cells
    )
