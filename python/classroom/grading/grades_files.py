"""What is told of each answer: the text of its verdict, and how many have which."""
from __future__ import annotations

from collections.abc import Iterable, Iterator, Sequence

from classroom.base.errors import shown
from classroom.grading.graded import Graded
from classroom.verdict import sentences
from classroom.verdict.decision import Grade
from classroom.verdict.verdict import Verdict
from classroom.verdict.witness import Undecided
from ratest.draw import counted


def output(of: Graded) -> str:
    """What was printed; where a database decides, what it said, as a student may read it."""
    if of.trial and of.is_tried:
        return sentences.text(of.trial, False)
    return of.ran.stdout.decode("utf-8", "replace") if of.ran and of.ran.stdout else of.why


def answer_text(of: Graded) -> bytes:
    """The status in the first line, and then what was printed, byte for byte; then what a database
    said."""
    trial = sentences.text(of.trial).encode("utf-8", "replace") if of.trial and of.is_tried else b""
    if of.ran is None:
        return trial or f"{of.grade}: {of.whole_fault}\n".encode("utf-8", "replace")
    passed = f", it passed the limit of {of.ran.passed}" if of.ran.passed else ""
    return f"status {of.ran.status}{passed}\n".encode() + of.ran.stdout + of.ran.stderr + trial


def summary(graded: Sequence[Graded]) -> str:
    """As `3 answers: 1 differs, 2 agree`."""
    counts = [(grade, sum(of.grade == grade for of in graded)) for grade in Grade]
    told = [grade.of_many(count) for grade, count in counts if count]
    return f"{counted(len(graded), 'answer')}: {', '.join(told)}" if told else "no answers"


def differing(references: Sequence[Graded]) -> Iterator[str]:
    """Of each further reference that answers otherwise than the first one of its task, on which
    rows."""
    for of in references:
        if of.grade != Grade.DIFFERS:
            continue
        rows = of.tried_witness or of.outcome
        kept = rows.best if isinstance(rows, Undecided) else getattr(rows, "kept", None)
        named = sentences.rows_named(kept or ())
        yield (
            f"task {shown(of.task.label)}: {of.task.source} and {of.answer.name} answer differently"
            f" on {named}; an answer that agrees with either is right"
        )


def doubts(graded: Sequence[Graded]) -> Iterator[str]:
    """What the trials showed of references alone, once a task."""
    for task in dict.fromkeys(of.task.label for of in graded):
        for told in sentences.doubts(trials(of for of in graded if of.task.label == task)):
            yield f"task {shown(task)}: {shown(told)}"


def trials(graded: Iterable[Graded]) -> Iterator[tuple[str, Verdict | None]]:
    """Those of answers, each with the file of the reference."""
    return ((one.task.source, one.trial) for of in graded for one in (of, *of.others))
