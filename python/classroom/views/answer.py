"""What the page shows of an outcome."""
from __future__ import annotations

from collections.abc import Sequence
from dataclasses import dataclass, replace

from classroom.views import draw
from classroom.verdict import witness
from classroom.views.draw import Drawing, counted
from classroom.grading.decide import slight
from classroom.sql.schema import Table
from classroom.exercise.settings import Settings
from classroom.views import draw_tried as drawing
from classroom.verdict import sentences as words
from classroom.verdict.decision import NoteKind
from classroom.verdict.verdict import Cause, Differs, NoDifference, NotDetermined, Verdict
from ratest.places import Place, place_of
from classroom.verdict.witness import Outcome

LIMIT = (
    "The two queries together make too many rows on the way to be compared here: join the tables by"
    " conditions."
)
REST = "No more counterexamples are shown to you within this hour."
NOT_PROVED = "This is not proved: a build without proofs said so."
PASSED = {
    "time": "There is no verdict within {seconds:g} seconds.",
    "memory": "There is no verdict within the memory that a question has.",
    "output": "The rows are too many to be shown.",
}


@dataclass(frozen=True)
class Answer:
    """The outcome of one question, ready to be drawn."""

    kind: str  # the class of the style sheet
    words: str
    told: str = ""
    place: Place | None = None
    drawing: Drawing | None = None


def answer_of(
    outcome: Outcome,
    text: str,
    tables: Sequence[Table],
    seconds: float,
    hides: str | None,
    trial: Verdict | None = None,
    said: Settings = Settings(),
    is_proved: bool = True,
) -> Answer:
    """`hides` is None where counterexamples are shown, else what is told in their place. Of what a
    database tried, or a build without proofs said, it says so."""
    agrees = isinstance(outcome, witness.Agree)
    found = tried(trial, text, hides, agrees, said) if trial else None
    made = found or of_ratest(outcome, text, tables, seconds, hides)
    is_own = isinstance(outcome, (witness.Agree, witness.Witness, witness.Undecided))
    if is_proved or not is_own or found and not agrees:
        return made
    return replace(made, told=f"{made.told} {NOT_PROVED}".strip())


def of_ratest(
    outcome: Outcome, text: str, tables: Sequence[Table], seconds: float, hides: str | None
) -> Answer:
    """What `ratest` said."""
    if isinstance(outcome, witness.Agree):
        return Answer(
            "agrees",
            "agrees",
            (
                "The query and the reference answer alike on every part of the "
                "exercise’s rows that meets the schema."
            ),
        )
    if isinstance(outcome, (witness.Witness, witness.Undecided)):
        return differing(outcome, tables, hides)
    if isinstance(outcome, witness.Refused):
        place = (
            place_of(text, outcome.place)
            if outcome.place is not None and outcome.part == "query 2"
            else None
        )
        where = f" (line {place.line}, column {place.column})" if place else ""
        return Answer("refused", f"refused: {outcome.fault}{where}", place=place)
    if isinstance(outcome, witness.Limit):
        # The numbers are those of both queries together, so they would say what the reference
        # costs.
        return Answer("passes-a-limit", "passes a limit", LIMIT)
    told = (
        PASSED[outcome.passed]
        if isinstance(outcome, witness.NoVerdict)
        else "The program failed on it."
    )
    return Answer("no-verdict", "no verdict", told.format(seconds=seconds))


def tried(
    trial: Verdict, text: str, hides: str | None, agrees: bool, said: Settings
) -> Answer | None:
    """What a database said; None where that is nothing more than `ratest` did."""
    of, engine = trial.outcome, words.TRIED.format(engine=trial.engine)
    if isinstance(of, Differs):
        if hides is not None:
            return Answer("differs tried", "differs (tried)", hides)
        failure = words.failure(of, False)
        return Answer(
            "differs tried",
            f"differs (tried) on {counted(len(of.kept), 'row')}: {words.KINDS[of.how]}",
            (
                f"{words.least(of)} {f'{failure[:1].upper()}{failure[1:]}. ' if failure else ''}{engine}"
            ),
            drawing=drawing.drawing(of),
        )
    kind = NoteKind.SLIGHT_AGREES if agrees else NoteKind.SLIGHT_SAME
    remarks = [
        f"{remark[:1].upper()}{remark[1:]}."
        for remark in (words.note(note, hides is None) for note in slight(trial, said, kind))
    ]
    if agrees:
        told = (
            "The query and the reference answer alike on every part of the exercise’s rows that"
            " meets the schema."
        )
        return Answer("agrees", "agrees", " ".join([told, *remarks])) if remarks else None
    if isinstance(of, NoDifference):
        return Answer(
            "no-difference-found tried",
            "no difference found (tried)",
            " ".join([words.tried_on(of), engine, *remarks]),
        )
    if isinstance(of, NotDetermined):
        return Answer(
            "not-determined tried", "not determined (tried)", f"{words.not_determined(of)} {engine}"
        )
    if of.is_wrong:
        place = place_of(text, byte_of(text, of.place)) if of.place is not None else None
        where = f" (line {place.line}, column {place.column})" if place else ""
        return Answer(
            "wrong-sql", f"wrong SQL: {of.message}{where}", "The database refuses it.", place=place
        )
    if of.cause == Cause.LIMIT:
        return Answer(
            "no-verdict", "no verdict", f"{trial.engine} passes its limit of {of.message} with it."
        )
    why = (
        "A query reads the tables, and does nothing else."
        if of.cause == Cause.BARRED
        else f"{words.refusal(of, trial.engine)}."
    )
    return Answer("refused", f"refused: {of.message}", why)


def byte_of(text: str, place: int) -> int:
    """The byte of the text at which a character of it stands, of which an engine saw no blanks at
    the beginning."""
    return len(
        text[: len(text) - len(text.lstrip("\ufeff").lstrip()) + place].encode("utf-8", "replace")
    )


def differing(
    outcome: witness.Witness | witness.Undecided, tables: Sequence[Table], hides: str | None
) -> Answer:
    if isinstance(outcome, witness.Undecided) and outcome.best is None:
        return Answer(
            "undecided",
            "undecided",
            (
                "The search ended before it found rows on which the answers differ, "
                "and before it could tell that there are none."
            ),
        )
    if hides is not None:
        return Answer("differs", "differs", hides)
    drawn = draw.drawing(outcome, tables)
    if isinstance(outcome, witness.Witness):
        return Answer(
            "differs",
            f"differs on {counted(len(outcome.kept), 'row')}",
            (
                "These are the fewest of the exercise’s rows on which the query and the reference"
                " answer differently."
            ),
            drawing=drawn,
        )
    return Answer(
        "undecided",
        f"differs on {counted(len(outcome.best or ()), 'row')}, perhaps on fewer",
        "The search ended before it could tell whether fewer rows are enough.",
        drawing=drawn,
    )
