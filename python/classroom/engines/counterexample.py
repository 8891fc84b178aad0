"""Looks for rows on which two queries differ, as few as can be."""
from __future__ import annotations

import random
from collections.abc import Callable, Iterator

from classroom.engines import join_tuples as joins
from classroom.engines.join_conditions import Schema
from classroom.verdict import verdict
from classroom.verdict.compare import DUPLICATES, ORDER, Answer, difference, rounded
from classroom.engines.answer_lines import kept_rows, lines, side
from classroom.engines.doubts import doubts_of
from classroom.engines.engine import ANSWER, REFERENCE, Engine, Refused
from classroom.engines.looks import Looks, Wanted
from classroom.exercise.shown_columns import hidden_of, statement_without
from classroom.engines.row_orders import RowOrders
from classroom.exercise.typed_rows import Material
from classroom.exercise.part_masks import Mask, Parts, bits
from classroom.verdict.verdict import (
    ALL,
    EACH,
    JOINS,
    NOTHING,
    Cause,
    Differs,
    Doubt,
    NoDifference,
    NotDetermined,
    Remark,
    Shown,
)

FEW_RANDOM = 200  # of queries that are known to agree
MOST_RANDOM = 16  # rows of a random part
FEW_LAWFUL = 3_000  # so many lawful parts are all tried, whatever the queries join
FEW_UNIONS = 3_000  # so many unions are tried where no difference is known
MOST_UNIONS = 400_000  # unions that are remembered at once
MOST_TUPLES = 50_000
FEW_TIED = 100  # parts without a difference on which ties are looked for
MOST_LOOKS = 200_000  # parts whose outcome is remembered
SEED = "rows"


class Search:
    """A reference and an answer over an engine."""

    def __init__(
        self,
        engine: Engine,
        parts: Parts,
        material: Material,
        queries: tuple[str, str],
        wanted: Wanted,
    ) -> None:
        self.engine, self.parts, self.material = engine, parts, material
        self.queries, self.wanted = queries, wanted
        self.counts = wanted.kinds()
        self.tables = engine.tables
        self.whole = parts.of_tables(self.tables)
        self.dialect = "sqlite" if material.product == "sqlite" else "postgres"
        self.orders = RowOrders(engine, queries, self.dialect)
        self.is_ordered = self.orders.is_ordered[REFERENCE]
        self.looks = Looks()
        self.few_parts, self.few_unions = (
            round(few * engine.pace) for few in (FEW_LAWFUL, FEW_UNIONS)
        )
        self.most_looks = wanted.looks * engine.pace
        self.until = self.clock() + wanted.seconds
        self.few_random = round(
            (FEW_RANDOM if wanted.agrees else wanted.random_parts) * engine.pace
        )

    def clock(self) -> float:
        """The seconds by which the time is told: the engine's, or as many as the looks at parts
        stand for."""
        return (
            self.looks.tried / self.most_looks * self.wanted.seconds
            if self.most_looks
            else self.engine.clock()
        )

    def kind(self, part: Mask) -> str:
        """How the queries differ on a part; "" where they don't, or where it depends on the order
        in which the rows are stored."""
        found = self.looks.known.get(part)
        if found is None:
            found = self.look(part)
            if len(self.looks.known) < MOST_LOOKS:
                self.looks.known[part] = found
        return found

    def look(self, part: Mask, is_thorough: bool = False) -> str:
        self.looks.tried += 1
        ahead = self.engine.answers(part)
        if self.is_failing(part, ahead):
            return ""
        found = self.orders.difference(part, ahead)
        if not found and not self.is_ordered and not is_thorough:
            return ""
        back = self.engine.answers(part, backwards=True)
        if self.is_failing(part, back):
            return ""
        again = self.orders.difference(part, back)
        stable = [
            not difference(one, other, False)
            and not self.is_tied(which, part, bool(found or again))
            for which, (one, other) in enumerate(zip(ahead, back))
        ]
        for which in (REFERENCE, ANSWER):
            self.looks.undetermined[which] |= not stable[which]
        if not stable[REFERENCE]:
            self.looks.see_tie(part)
        if not all(stable):
            return ""
        if ORDER in (found, again):
            lines, others = rounded(ahead[REFERENCE].lines), rounded(back[REFERENCE].lines)
            if lines != others and not self.orders.runs(part, REFERENCE, ahead[REFERENCE]):
                found, again = ("" if kind == ORDER else kind for kind in (found, again))
        kind = found or again
        if kind not in self.counts and (kind in (DUPLICATES, ORDER) or kind and self.wanted.agrees):
            self.looks.slight.setdefault(kind, part)
        return kind

    def is_failing(self, part: Mask, both: tuple[Answer, Answer]) -> bool:
        """Whether the reference fails on a part, which then tells nothing."""
        if both[REFERENCE].failure:
            self.looks.see_failure(part)
        return bool(both[REFERENCE].failure)

    def is_tied(self, which: int, part: Mask, is_wanted: bool) -> bool:
        """Whether the answer depends on how ties are broken. Of parts without a difference only a
        few are asked, until one is tied."""
        if not is_wanted:
            if self.looks.undetermined[which] or self.looks.tied[which] >= FEW_TIED:
                return False
            self.looks.tied[which] += 1
        first = None
        for way in range(self.engine.ties(which)):
            found = self.engine.tied_answer(which, way, part)
            if found is None:
                return False
            first = first or found
            if difference(first, found, False):
                return True
        return False

    def differs(self, part: Mask) -> bool:
        return self.kind(part) in self.counts

    def is_late(self) -> bool:
        return self.clock() > self.until

    def outcome(self) -> verdict.Outcome:
        """What all looks together say."""
        self.look_at_all()
        kind = self.look(self.whole, is_thorough=True)
        self.looks.known[self.whole] = kind
        if kind in self.counts:
            return self.witness(self.whole)
        few = None if self.wanted.agrees else self.few_lawful()
        tried = 0
        for part in few or self.random_parts():
            if few is None:
                tried += 1
            if part not in self.looks.known:
                self.looks.known[part] = self.look(part, is_thorough=True)
            if self.looks.known[part] in self.counts:
                return self.witness(part)
            if self.is_late():
                few = None
                break
        if few is not None:
            return self.none(NoDifference(len(few), 0, 0, False))
        if self.wanted.agrees:
            return NoDifference(0, tried, 0, False)
        below, is_whole = 0, False
        units, is_joined = self.units()
        for union in self.unions(units, is_joined, self.whole.bit_count() + 1, self.few_unions):
            if union is None:
                break
            below = union.bit_count()
            if self.differs(union):
                return self.witness(union)
            if self.is_late():
                break
        else:
            is_whole = True
        return self.none(
            NoDifference(0, tried, self.whole.bit_count() + 1 if is_whole else below, is_joined)
        )

    def look_at_all(self) -> None:
        """Takes all tables for read where the rows of those that were found show no difference and
        all rows do."""
        everything = (1 << len(self.parts.rows)) - 1
        if everything != self.whole and self.look(everything) in self.counts:
            if self.look(self.whole) not in self.counts:
                self.tables = frozenset(range(len(self.material.pool.held)))
                self.whole = everything

    def none(self, found: NoDifference) -> verdict.Outcome:
        if any(self.looks.undetermined):
            return NotDetermined(*self.looks.undetermined)
        failure = self.engine.answers(self.whole)[REFERENCE].failure
        if failure:
            raise Refused(REFERENCE, failure, cause=Cause.UNSUPPORTED)
        return found

    def few_lawful(self) -> list[Mask] | None:
        """All lawful parts where they are few."""
        return self.listed(self.parts.below(self.tables, self.whole.bit_count() + 1))

    def listed(self, parts: Iterator[Mask]) -> list[Mask] | None:
        found = []
        for part in parts:
            found.append(part)
            if len(found) > self.few_parts:
                return None
        return found

    def random_parts(self) -> Iterator[Mask]:
        chance = random.Random(SEED)
        for _ in range(self.few_random):
            yield self.parts.random_part(self.whole, chance.randrange(1, MOST_RANDOM), chance)

    def units(self) -> tuple[list[Mask], bool]:
        """The rows that can matter together, and whether the queries' joins were understood."""
        schema = Schema(
            [name.lower() for name in self.material.names()],
            [
                frozenset(column.name.lower() for column in held.table.columns)
                for held in self.material.pool.held
            ],
        )
        texts = [*self.queries, *(view.query for view in self.material.views)]
        known = joins.understood(texts, schema, self.dialect)
        alone = set(known.alone)
        found: set[Mask] = set()
        for tuples in known.tuples:
            if not {table for table, _ in tuples.tables} <= self.tables:
                continue
            made: set[Mask] = set()
            try:
                for places in self.engine.joined(tuples.tables, tuples.condition):
                    mask = 0
                    for at in places:
                        mask |= self.parts.up[at]
                    made.add(mask)
                    if len(made) > MOST_TUPLES:
                        raise ValueError
            except ValueError:
                alone |= {table for table, _ in tuples.tables}
                continue
            found |= made
        alone &= self.tables
        # Of a table that no tuple has each row counts alone.
        alone |= self.tables - {table for tuples in known.tuples for table, _ in tuples.tables}
        found |= {
            self.parts.up[at] for at in range(len(self.parts.rows)) if self.parts.table(at) in alone
        }
        return sorted(found), alone != self.tables

    def unions(
        self, units: list[Mask], is_joined: bool, less_than: int, most: int | None = None
    ) -> Iterator[Mask | None]:
        """The parts of fewer rows than that by which all can be told; None where there are more
        than `most`."""
        made: Iterator[Mask | None] = (
            joins.unions(units, less_than, MOST_UNIONS, most and most + 1)
            if is_joined
            else self.parts.below(self.tables, less_than)
        )
        for count, part in enumerate(made):
            if most is not None and count >= most:
                yield None
                return
            yield part

    def witness(self, part: Mask) -> Differs:
        """The smallest part that is found from one on which they differ."""
        shrink_until = self.clock() + (self.until - self.clock()) / 2
        best, is_least = self.shrunk(
            part, self.differs, None, max(shrink_until, self.clock() + 0.2)
        )
        chance = random.Random(SEED)
        for _ in range(self.wanted.shrinkings - 1):
            if self.clock() > shrink_until or best.bit_count() <= 1:
                break
            other, is_done = self.shrunk(part, self.differs, chance, shrink_until)
            if other.bit_count() < best.bit_count():
                best, is_least = other, is_done
        least, count = EACH if is_least else NOTHING, 0
        while True:
            found, how, count = self.smaller(best)
            if found is None:
                if any(self.looks.undetermined):  # such parts tell nothing of fewer rows
                    how, least, count = "", NOTHING, 0
                return self.told(best, how or least, count)
            best = found

    def smaller(self, best: Mask) -> tuple[Mask | None, str, int]:
        """A smaller part on which they differ; else by what it is known that there is none, and how
        many were tried for that."""
        size = best.bit_count()
        few = self.listed(self.parts.below(self.tables, size))
        parts: Iterator[Mask | None]
        if few is not None:
            parts, how = iter(few), ALL
        else:
            units, is_joined = self.units()
            parts, how = self.unions(units, is_joined, size), JOINS if is_joined else ALL
        count = 0
        for part in parts:
            if part is None:
                return None, "", 0
            count += 1
            if self.differs(part):
                return part, "", 0
            if count % 16 == 0 and self.is_late():
                return None, "", 0
        return None, how, count

    def shrunk(
        self, part: Mask, holds: Callable[[Mask], bool], chance: random.Random | None, until: float
    ) -> tuple[Mask, bool]:
        """A part for which it holds, and no longer without any one row and what refers to it, if
        the time was enough for that."""
        size = max(1, part.bit_count() // 2)
        while True:
            order = sorted(bits(part), key=lambda at: (-self.parts.up[at].bit_count(), at))
            if chance:
                chance.shuffle(order)
            is_changed = False
            for begin in range(0, len(order), size):
                gone = [at for at in order[begin : begin + size] if part >> at & 1]
                if not gone:
                    continue
                less = self.parts.without(part, gone)
                if holds(less):
                    part, is_changed = less, True
                if self.clock() > until:
                    return part, False
            if size == 1 and not is_changed:
                return part, True
            size = max(1, min(size // 2, part.bit_count() // 2)) if size > 1 else 1

    def told(self, part: Mask, least: str, count: int) -> Differs:
        ahead = self.engine.answers(part)
        kind = self.kind(part)
        is_left_open = False
        if difference(*ahead, self.is_ordered) != kind:
            ahead = self.engine.answers(part, backwards=True)
            is_left_open = difference(*ahead, self.is_ordered) != kind == ORDER
        hidden = hidden_of(self.material, self.queries)
        held_of = self.material.pool.held
        columns = [
            [at for at, column in enumerate(held.table.columns) if column.name not in hidden[table]]
            for table, held in enumerate(held_of)
        ]
        kept = kept_rows(part, self.parts, columns)
        used = self.tables | {self.parts.table(at) for at in bits(part)}
        tables = tuple(
            Shown(
                held.table.name,
                tuple(held.table.columns[place].name for place in columns[at]),
                statement_without(self.material, at, hidden[at]),
            )
            for at, held in enumerate(held_of)
            if at in used
        )
        return Differs(
            kind,
            kept,
            side(ahead[REFERENCE]),
            side(ahead[ANSWER]),
            lines(*ahead),
            least,
            count,
            tables,
            is_left_open,
        )

    def doubts(self) -> tuple[Doubt, ...]:
        """What was seen of the reference alone."""
        text = self.queries[REFERENCE]
        return doubts_of(self.looks, self.engine, self.parts, text, self.dialect)

    def remarks(self) -> tuple[Remark, ...]:
        """What differs in duplicates or order alone, each with a part as small as one shrinking
        makes it."""
        made = []
        for kind, part in sorted(self.looks.slight.items()):
            small, _ = self.shrunk(part, lambda less, kind=kind: self.kind(less) == kind, None, self.clock() + 1.0)  # type: ignore[misc]
            both = self.engine.answers(small)
            if not difference(*both, self.is_ordered):
                both = self.engine.answers(small, backwards=True)
            told = next((line for line in lines(*both) if line.reference != line.answer), None)
            is_left_open = kind == ORDER and not difference(*both, self.is_ordered)
            made.append(Remark(kind, told, is_left_open))
        return tuple(made)
