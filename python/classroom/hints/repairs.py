"""The search for the repairs and the classes of answers, proved, or tried where `ratest` doesn't
read the queries.

A repair is a change of one place of an answer with which it is proved to agree with the reference
on every lawful part of the exercise's rows. A class is a change of the reference that agrees in the
same way with the answer: which mistake it is. What a guard refutes, other rows on which the two
differ, is neither. """
from __future__ import annotations

import sqlite3
from collections.abc import Callable, Sequence
from dataclasses import dataclass
from functools import cached_property
from pathlib import Path

from classroom.edits.edits import Edit, edits
from classroom.edits.families import BAGS, CLASSES, ORDERED, REPAIRS, TRIED_REPAIRS, Family
from classroom.edits.query import Query
from classroom.base.errors import Fault
from classroom.exercise.rows import Pool
from classroom.exercise import generated as made
from classroom.engines.sample import PARTS as PARTS_OF_ROWS
from classroom.engines.sample import Answer, Base, Database, Holds
from classroom.engines.proof import LIMITS, Prover
from classroom.edits.pair_vocabulary import Words
from classroom.process.limits import Limits
from classroom.verdict.compare import DUPLICATES, ORDER, ROWS

# Of SQLite's machine for the changes of one answer, in hundreds of two: some two seconds. What is
# left then is not tried, the cheapest changes go first.
MOST_STEPS = 500_000
# Of the rows that are made, with few parts each: several sets show more than one that is larger.
SEEDS = tuple(str(number) for number in range(1, 13))
PARTS = 6
TRIED_PARTS = 150  # of the exercise's rows, where nothing is proved


ENGINE = f"sqlite {sqlite3.sqlite_version}"


@dataclass(frozen=True)
class Found:
    """The changes of a query that agree, the best first."""

    query: Query  # that they are changes of
    edits: tuple[Edit, ...]  # that no guard refutes
    refuted: int  # how many agree on the exercise's rows, and a guard refutes them
    is_guarded: bool  # whether there was a guard
    tried: int = 0  # on so many parts of the rows, and not proved; 0 where it is proved
    engine: str = ENGINE  # that tried

    @property
    def best(self) -> Edit | None:
        return self.edits[0] if self.edits else None


class Ground:
    """The rows of an exercise, and the guards that all of its tasks share."""

    def __init__(
        self,
        rows: Pool,
        guard: Pool | None,
        work: Path,
        limits: Limits = LIMITS,
        kind: str = ROWS,
        holds: Callable[[Pool], Holds] = Database,
        engine: str = ENGINE,
    ) -> None:
        """`guard` are other rows of the schema, as those that an exercise was picked of; `work` is
        an empty folder for as long as the ground is used. `kind`: as what rows are compared;
        `holds` are the databases that hold them, of this engine."""
        self.rows = rows
        self.schema = rows.schema.decode("utf-8", "replace")
        self.work, self.limits = work, limits
        self.kind, self.holds, self.engine = kind, holds, engine
        self.guards = [self.of(guard, PARTS_OF_ROWS)] if guard else []

    def of(self, pool: Pool, parts: int) -> Base:
        return Base(pool, parts, kind=self.kind, database=self.holds(pool))

    @cached_property
    def base(self) -> Base:
        return self.of(self.rows, PARTS_OF_ROWS)

    @cached_property
    def wide(self) -> Base:
        """The rows with as many parts as take the place of a proof."""
        return self.of(self.rows, TRIED_PARTS)

    @cached_property
    def prover(self) -> Prover:
        return Prover(self.rows.files(frozenset(self.rows.lawful)), self.work, self.limits)


class Search:
    """Over one reference."""

    def __init__(self, ground: Ground, reference: str, is_tried: bool = False) -> None:
        """A Fault where sqlglot doesn't read the reference. `is_tried`: nothing is proved, and
        SQLite's answers on many parts take the place of that; then a Fault too where it has
        none."""
        self.ground = ground
        self.is_tried = is_tried
        self.base = ground.wide if is_tried else ground.base
        self.families, self.of_classes = (
            (families_of(REPAIRS, ground.kind), families_of(CLASSES, ground.kind))
            if is_tried
            else (REPAIRS, CLASSES)
        )
        self.reference = reference
        self.words = Words(ground.schema, reference)
        self.wanted = self.base.answers(reference)
        if is_tried and self.base.has_ties(reference):
            raise Fault("the reference has ties: SQL leaves open what it returns over these rows")
        if is_tried and not any(self.wanted):
            raise Fault(f"{ground.engine} does not answer the reference over these rows")
        self.known: dict[tuple[int, str], list[Answer]] = {}  # what guards answer to the reference
        self.plain = self.words.of(reference)
        self.changed = Changed(Query.of(reference, self.plain), self.base, self.of_classes)

    @cached_property
    def guards(self) -> list[Base]:
        """Those of the exercise, and rows that are made for the schema and the constants of the
        reference."""
        return [*self.ground.guards, *self.made()]

    def made(self) -> list[Base]:
        plain = self.words.plain
        pools = [made.pool_of(self.ground.rows, plain.numbers, plain.texts, seed) for seed in SEEDS]
        return [self.ground.of(pool, PARTS) for pool in pools if pool]

    def repairs(self, answer: str) -> Found:
        """A Fault where sqlglot doesn't read the answer."""
        query = Query.of(answer, self.words.of(answer))
        made_of = edits(query, self.families)
        left = self.base.passing([edit.text for edit in made_of], self.wanted, MOST_STEPS)
        return self.guarded(
            query, self.proved(self.reference, [made_of[at] for at in left]), self.reference
        )

    def classes(self, answer: str) -> Found:
        """Changes of the reference that agree with the answer."""
        words = self.words.of(answer)
        base = self.base
        wanted = base.answers(answer)
        left = self.changed.passing(wanted)
        query = self.changed.query
        if words != self.plain:
            # The answer has constants or comparisons of its own.
            query = Query.of(self.reference, words)
            known = {edit.text for edit in self.changed.edits}
            more = [edit for edit in edits(query, self.of_classes) if edit.text not in known]
            left += [
                more[at] for at in base.passing([edit.text for edit in more], wanted, MOST_STEPS)
            ]
        left.sort(key=lambda edit: edit.rank)
        return self.guarded(query, self.proved(answer, left), answer)

    def proved(self, with_query: str, left: Sequence[Edit]) -> list[Edit]:
        if self.is_tried:
            return list(left)
        agree = self.ground.prover.agree(with_query, [edit.text for edit in left])
        return [edit for edit, agrees in zip(left, agree) if agrees]

    def guarded(self, query: Query, found: Sequence[Edit], with_query: str) -> Found:
        """What no guard refutes of changes that agree with a query on the exercise's rows."""
        kept = list(found)
        for at in range(len(self.guards) if kept else 0):
            kept = self.left_by(at, kept, with_query)
        tried = len(self.wanted) - self.wanted.count(None) if self.is_tried else 0
        return Found(
            query,
            tuple(kept),
            len(found) - len(kept),
            not found or bool(self.guards),
            tried,
            self.ground.engine,
        )

    def left_by(self, guard: int, found: Sequence[Edit], with_query: str) -> list[Edit]:
        """What one guard does not refute."""
        rows = self.guards[guard]
        key = guard, with_query if with_query == self.reference else ""
        wanted = self.known.get(key) if key[1] else None
        if wanted is None and found:
            wanted = rows.answers(with_query)
            if key[1]:
                self.known[key] = wanted
        return (
            [found[at] for at in rows.passing([edit.text for edit in found], wanted)]
            if wanted
            else []
        )


def families_of(families: Sequence[Family], kind: str) -> tuple[Family, ...]:
    """With those of queries beyond the proved language; of answers that differ in duplicates those
    of duplicates too, and of those that differ in order those of order alone."""
    return (
        ORDERED
        if kind == ORDER
        else (*families, *TRIED_REPAIRS, *(BAGS if kind == DUPLICATES else ()))
    )


class Changed:
    """The changes of a reference with their answers on the parts, which are kept for the answers of
    a class."""

    def __init__(self, query: Query, base: Base, families: Sequence[Family]) -> None:
        self.query = query
        self.base = base
        self.edits = edits(query, families)
        self.texts = [base.database.written(edit.text) for edit in self.edits]
        self.answers: dict[tuple[int, int], Answer] = {}

    def passing(self, wanted: Sequence[Answer]) -> list[Edit]:
        """Those with these answers."""
        return [
            self.edits[at]
            for at in self.base.left(len(self.edits), wanted, self.answer, MOST_STEPS)
        ]

    def answer(self, at: int, part: int) -> Answer:
        if (at, part) not in self.answers:
            self.answers[at, part] = self.base.answer(part, self.texts[at])
        return self.answers[at, part]
