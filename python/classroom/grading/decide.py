"""The one place in which a verdict on an answer comes about, from values alone.

| `ratest` says | the exercise's engine says | the verdict |
| --- | --- | --- |
| no text of one query | not asked | not read |
| ended by a signal, or can't be read | anything | no verdict |
| agrees | nothing else, or not asked | agrees; open where duplicates or order count as wrong |
| agrees | another number of times, another order | agrees, or differs, as the settings say |
| agrees | other rows | agrees, and is open |
| a witness; other columns | not asked | differs |
| refuses, a limit, no verdict | no difference, a difference | that, by the engine |
| refuses, a limit, no verdict | refuses the reference | not graded, not read or no verdict |
| refuses, a limit, no verdict | refuses its syntax, or a name that is nowhere | wrong SQL |
| refuses, a limit, no verdict | another dialect reads it; bars it | not read |
| refuses, a limit, no verdict | a limit; depends on the stored order | no verdict; not determined |
| refuses, a limit, no verdict | not asked, for whatever reason | not read, or no verdict |
"""
from __future__ import annotations

from dataclasses import replace

from classroom.exercise.exercise import Answer, Task
from classroom.exercise.settings import Settings
from classroom.verdict import sentences, witness
from classroom.verdict.compare import COLUMNS, DUPLICATES, ORDER
from classroom.verdict.decision import PROVED, Decision, Grade, Note, NoteKind
from classroom.verdict.verdict import (
    Cause,
    Differs,
    NoDifference,
    NotDetermined,
    Verdict,
)
from classroom.verdict.witness import Outcome
from ratest.draw import counted

LIMIT = "passes a limit: "


def decide(
    task: Task,
    answer: Answer,
    proof: Outcome | None,
    trial: Verdict | None,
    said: Settings,
    prover: str = PROVED,
) -> Decision:
    """The verdict on an answer to a task by what `ratest` said, None where it wasn't asked, and by
    what the exercise's engine said, None where that wasn't asked. `prover` names the build."""
    texts = tuple(Note(NoteKind.TEXT, remark) for remark in answer.text.remarks)
    if answer.fault:
        made = Decision(Grade.NOT_GRADED if task.fault else Grade.NOT_READ, fault=answer.fault)
        return replace(made, fault=task.fault or answer.fault, notes=texts)
    if task.fault:
        made = Decision(Grade.NOT_GRADED, fault=task.fault, notes=texts)
    elif isinstance(proof, witness.Died):
        return Decision(Grade.NO_VERDICT, fault=proof.how, notes=texts, has_died=True)
    elif proof is None:
        made = Decision(Grade.NO_VERDICT, fault="it was not run", notes=texts)
    else:
        made = by_proof(answer, proof, prover)
        made = replace(made, notes=(*made.notes, *texts))
    if made.grade == Grade.AGREES:
        return agreeing(made, trial, said)
    if made.grade == Grade.DIFFERS or trial is None:
        return made
    return by_trial(made, answer, trial, said, texts)


def by_proof(answer: Answer, proof: Outcome, prover: str) -> Decision:
    """What `ratest` alone says."""
    if isinstance(proof, witness.Agree):
        return Decision(Grade.AGREES, prover)
    if isinstance(proof, witness.Witness):
        return Decision(Grade.DIFFERS, prover)
    if isinstance(proof, witness.Undecided):
        if proof.best is not None:
            return Decision(Grade.DIFFERS, prover, notes=(Note(NoteKind.PERHAPS_FEWER),))
        verb = "was" if proof.conflicts == 1 else "were"
        return Decision(
            Grade.NO_VERDICT, fault=f"{counted(proof.conflicts, 'conflict')} {verb} not enough"
        )
    if isinstance(proof, witness.Refused):
        if witness.tells_columns(proof):
            return Decision(Grade.DIFFERS, prover, notes=(Note(NoteKind.OTHER_COLUMNS),))
        return Decision(Grade.NOT_READ, fault=proof.fault)
    if isinstance(proof, witness.Limit):
        return Decision(Grade.NO_VERDICT, fault=f"{LIMIT}{proof.fault}")
    assert isinstance(proof, witness.NoVerdict)
    return Decision(Grade.NO_VERDICT, fault=f"passes the limit of {proof.passed}")


def agreeing(made: Decision, trial: Verdict | None, said: Settings) -> Decision:
    """An answer that agrees as a set, with what a database says of duplicates and order."""
    strict = " and ".join(
        name
        for name, value in ((DUPLICATES, said.duplicates), (ORDER, said.order))
        if value == "wrong"
    )
    if trial is None or not isinstance(trial.outcome, (Differs, NoDifference)):
        notes = (Note(NoteKind.NOT_LOOKED, strict),) if strict else ()
        return replace(made, notes=(*made.notes, *notes), is_open=bool(strict))
    if isinstance(trial.outcome, Differs):
        return replace(
            made,
            grade=Grade.DIFFERS,
            by=trial.engine,
            is_tried=True,
            notes=(*made.notes, Note(NoteKind.DIFFERENCE, trial.outcome.how)),
        )
    others = [one for one in trial.remarks if one.difference not in (DUPLICATES, ORDER)]
    if others:
        # As a time that is compared as a text in the CSV files: whoever is right, a teacher looks.
        return replace(made, notes=(*made.notes, Note(NoteKind.OTHERWISE, others[0])), is_open=True)
    return replace(made, notes=(*made.notes, *slight(trial, said, NoteKind.SLIGHT_AGREES)))


def by_trial(
    made: Decision, answer: Answer, trial: Verdict, said: Settings, texts: tuple[Note, ...]
) -> Decision:
    """An answer that `ratest` leaves open, with what the exercise's engine says."""
    outcome = trial.outcome
    by = Decision(made.grade, trial.engine, is_tried=True, notes=made.notes)
    if isinstance(outcome, Differs):
        told = (
            Note(NoteKind.OTHER_COLUMNS)
            if outcome.difference == COLUMNS
            else Note(NoteKind.DIFFERENCE, outcome.how)
        )
        return replace(
            by, grade=Grade.DIFFERS, fault=sentences.failure(outcome), notes=(*texts, told)
        )
    if isinstance(outcome, NoDifference):
        return replace(
            by,
            grade=Grade.NO_DIFFERENCE,
            is_open=said.tried == "by hand",
            notes=(*texts, *slight(trial, said, NoteKind.SLIGHT_SAME)),
        )
    if isinstance(outcome, NotDetermined):
        return replace(by, grade=Grade.NOT_DETERMINED, fault=sentences.not_determined(outcome))
    why = sentences.refusal(outcome, trial.engine)
    if outcome.is_reference:
        return replace(made, of_reference=why)
    if outcome.is_wrong:
        place = place_of(answer.text.query, outcome.place)
        return replace(by, grade=Grade.WRONG_SQL, fault=f"{why}{place}")
    if outcome.cause == Cause.LIMIT:
        return replace(made, grade=Grade.NO_VERDICT, fault=why)
    is_of_answer = made.fault and made.grade != Grade.NOT_GRADED
    return replace(
        made,
        grade=Grade.NOT_READ,
        fault=f"{made.fault}; {why}" if is_of_answer else why,
        dialect=outcome.dialect,
    )


def slight(trial: Verdict, said: Settings, kind: NoteKind) -> tuple[Note, ...]:
    """What differs in duplicates or order alone, as far as it is wanted."""
    wanted = {DUPLICATES: said.duplicates, ORDER: said.order}
    return tuple(
        Note(kind, remark)
        for remark in trial.remarks
        if wanted.get(remark.difference, "ignore") != "ignore"
    )


def place_of(query: bytes, place: int | None) -> str:
    """As ` (line 2, column 5)`, of a character of the query as an engine gets it."""
    if place is None:
        return ""
    text = query.decode("utf-8", "replace").removeprefix("\ufeff")
    before = text[: len(text) - len(text.lstrip()) + place]
    return f" (line {before.count(chr(10)) + 1}, column {len(before) - before.rfind(chr(10))})"


def is_open(proof: Outcome) -> bool:
    """Whether `ratest` doesn't decide it, and a database may."""
    if isinstance(proof, witness.Refused):
        return not witness.tells_columns(proof)
    if isinstance(proof, witness.Undecided):
        return proof.best is None
    return isinstance(proof, (witness.Limit, witness.NoVerdict))
