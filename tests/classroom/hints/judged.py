"""What is found for the wrong answers, beside what a teacher would say."""
from __future__ import annotations

from dataclasses import dataclass
from functools import cache, lru_cache
from pathlib import Path
from tempfile import mkdtemp

from cases import HERE, Wrong

from classroom.edits.clauses import Clauses
from classroom.edits.edits import Edit
from classroom.sql.spans import Span
from classroom.exercise import sources
from classroom.exercise import generated as made
from classroom.engines.sample import Base
from classroom.hints.repairs import Found, Ground, Search


@dataclass(frozen=True)
class Judged:
    wrong: Wrong
    repairs: Found
    classes: Found

    @property
    def best(self) -> Edit | None:
        return self.repairs.best

    @property
    def place_is_right(self) -> bool:
        """Whether the shown place is in the marked one, or has it and no more of the text than its
        clause."""
        if self.best is None:
            return False
        shown, mark = self.best.place, Span(self.wrong.begin, self.wrong.end)
        if mark.begin <= shown.begin and shown.end <= mark.end:
            return True
        clauses = Clauses(self.repairs.query)
        return (
            shown.begin <= mark.begin
            and mark.end <= shown.end
            and clauses.of(shown) == clauses.of(mark)
        )

    @property
    def kind_is_right(self) -> bool:
        return self.best is not None and self.best.kind.value in self.wrong.kinds

    @property
    def told(self) -> str:
        best = self.best
        shown = (
            f"{self.repairs.query.text[slice(*best.place)]!r} ({best.kind.value}: {best.mistake})"
            if best
            else "nothing"
        )
        named = self.classes.best.mistake if self.classes.best else "nothing"
        return f"{self.wrong.marked} [{' | '.join(self.wrong.kinds)}]: {shown}, class {named}"


@cache
def ground(schema: str) -> Ground:
    return Ground(
        sources.of_exercise(HERE / schema), None, Path(mkdtemp(prefix=f"repair-{schema}-"))
    )


@lru_cache(4)
def search(schema: str, reference: str) -> Search:
    return Search(ground(schema), reference)


@cache
def judged(wrong: Wrong) -> Judged:
    of = search(wrong.schema, wrong.reference)
    return Judged(wrong, of.repairs(wrong.answer), of.classes(wrong.answer))


@lru_cache(4)
def larger(schema: str, reference: str) -> list[Base]:
    """Other rows than those that any guard has, and more of them."""
    of = search(schema, reference)
    plain = of.words.plain
    pools = [
        made.pool_of(ground(schema).rows, plain.numbers, plain.texts, f"larger {number}", 250)
        for number in range(3)
    ]
    return [Base(pool, 20, "larger") for pool in pools if pool]
