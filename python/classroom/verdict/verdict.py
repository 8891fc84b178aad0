"""What a trial came to, typed, and as JSON."""
from __future__ import annotations

from collections.abc import Sequence
from dataclasses import dataclass, field, replace
from enum import StrEnum
from typing import Any, NamedTuple, Union

from classroom.exercise.cells import Cells, cells, encoded
from classroom.verdict.compare import LEFT_OPEN

# By what it is known that no smaller part differs: all lawful parts were tried; all that the
# queries' joins tell apart; each row is needed; or nothing, since the time ended before.
ALL, JOINS, EACH, NOTHING = LEASTS = ("all", "joins", "each", "nothing")


class WitnessRow(NamedTuple):
    """A row of a witness."""

    table: str
    number: int  # in its table's file, from 1
    cells: Cells


class Line(NamedTuple):
    """A row of the answers with how often each query returns it."""

    cells: Cells
    reference: int
    answer: int


@dataclass(frozen=True)
class Side:
    """One query's answer on a witness."""

    columns: int
    lines: tuple[Cells, ...]  # in the order in which they came
    failure: str = ""


class Shown(NamedTuple):
    """A table of a witness."""

    name: str
    columns: tuple[str, ...]
    statement: str  # CREATE TABLE


@dataclass(frozen=True)
class Differs:
    """The queries answer differently on some rows."""

    difference: str  # one of comparison.KINDS
    kept: tuple[WitnessRow, ...]
    reference: Side
    answer: Side
    lines: tuple[Line, ...]  # the rows of both answers, each once
    least: str  # one of LEASTS
    parts: int  # how many smaller parts were tried for that
    tables: tuple[Shown, ...] = ()  # of the rows, and those that the queries read
    # Of a difference in order: the rows came in the reference's order, which the answer leaves open.
    is_left_open: bool = False

    @property
    def how(self) -> str:
        """One of comparison.KINDS, or LEFT_OPEN."""
        return LEFT_OPEN if self.is_left_open else self.difference


@dataclass(frozen=True)
class NoDifference:
    """No part of the rows was found on which they answer differently."""

    lawful: int  # where all lawful parts were tried, how many; else 0
    random: int  # how many random parts were tried
    below: int  # all parts of fewer rows than that were tried
    joins: bool  # of those only what the queries' joins tell apart


@dataclass(frozen=True)
class NotDetermined:
    """What a query returns depends on the order in which the rows are stored."""

    reference: bool
    answer: bool


class Cause(StrEnum):
    """Why an engine refuses a query."""

    SYNTAX = "syntax"  # no dialect that is known reads it
    NAME = "name"  # of a table, a column or a function that is nowhere
    DIALECT = "dialect"  # another dialect reads it, or has the function
    HELD = "held"  # a name that the database has, and the rows that are tried have not
    UNSUPPORTED = "unsupported"
    BARRED = "barred"  # it does something else than to read the rows
    LIMIT = "limit"  # time, memory, output, rows or size of a value


@dataclass(frozen=True)
class Refusal:
    """Why an engine doesn't answer a query, over any rows."""

    is_reference: bool
    cause: Cause
    message: str  # of Cause.LIMIT the limit's name
    place: int | None = None  # the character of the text, from 0
    dialect: str = ""  # that reads it, by its name, where the cause is Cause.DIALECT

    @property
    def is_wrong(self) -> bool:
        """Whether the query is wrong SQL."""
        return self.cause in (Cause.SYNTAX, Cause.NAME)


def is_of_limit(outcome: Outcome) -> bool:
    """Whether it passed a limit."""
    return isinstance(outcome, Refusal) and outcome.cause == Cause.LIMIT


Outcome = Union[Differs, NoDifference, NotDetermined, Refusal]


@dataclass(frozen=True)
class Remark:
    """What differs in duplicates or order alone; of queries that are known to agree also what
    differs at all."""

    difference: str  # of comparison.KINDS
    line: Line | None = None  # of duplicates, one row
    is_left_open: bool = False  # as of `Differs`


@dataclass(frozen=True)
class Doubt:
    """Rows on which the reference tells nothing: ties leave open what it returns there, or it
    fails."""

    rows: tuple[WitnessRow, ...]
    failure: str = ""  # as a division by zero; empty of ties
    keys: str = ""  # of ties: what its ORDER BY lacks, where that is known


@dataclass(frozen=True)
class Verdict:
    """An outcome with the engine that it comes from."""

    engine: str  # as `sqlite 3.40.1`
    outcome: Outcome
    remarks: tuple[Remark, ...] = field(default=())
    doubts: tuple[Doubt, ...] = field(default=())  # for the teacher


def to_json(verdict: Verdict) -> dict[str, Any]:
    return {
        "engine": verdict.engine,
        "kind": type(verdict.outcome).__name__,
        "outcome": encoded(verdict.outcome),
        "remarks": [encoded(of) for of in verdict.remarks],
        "doubts": [encoded(of) for of in verdict.doubts],
    }


def line(value: Sequence[Any]) -> Line:
    return Line(cells(value[0]), int(value[1]), int(value[2]))


def rows(value: Sequence[Any]) -> tuple[WitnessRow, ...]:
    return tuple(
        WitnessRow(str(table), int(number), cells(values)) for table, number, values in value
    )


def side(value: dict[str, Any]) -> Side:
    return Side(int(value["columns"]), tuple(map(cells, value["lines"])), str(value["failure"]))


def from_json(text: dict[str, Any]) -> Verdict:
    """The verdict of a child; ValueError, KeyError or TypeError where it is none."""
    kind, of = text["kind"], text["outcome"]
    outcome: Outcome
    if kind == "Differs":
        outcome = Differs(
            str(of["difference"]),
            rows(of["kept"]),
            side(of["reference"]),
            side(of["answer"]),
            tuple(map(line, of["lines"])),
            str(of["least"]),
            int(of["parts"]),
            tuple(
                Shown(str(name), tuple(map(str, columns)), str(statement))
                for name, columns, statement in of["tables"]
            ),
            bool(of["is_left_open"]),
        )
    else:
        plain = {"NoDifference": NoDifference, "NotDetermined": NotDetermined, "Refusal": Refusal}
        outcome = plain[kind](**of)
        if isinstance(outcome, Refusal):
            outcome = replace(outcome, cause=Cause(outcome.cause))
    return Verdict(
        str(text["engine"]),
        outcome,
        tuple(
            Remark(
                str(one["difference"]),
                line(one["line"]) if one["line"] else None,
                bool(one["is_left_open"]),
            )
            for one in text["remarks"]
        ),
        tuple(
            Doubt(rows(one["rows"]), str(one["failure"]), str(one["keys"]))
            for one in text["doubts"]
        ),
    )
