"""What the programs print, read back into values.

A text in it may hold line ends, commas and quotes, so it is read from the left by its grammar and
never cut into lines first. What has any other form is `Unreadable`. """
from __future__ import annotations

import re
from collections.abc import Mapping, Sequence
from dataclasses import dataclass
from typing import NamedTuple, Union

from ratest.schema import Table

# The exit statuses.
FINE, WITNESS, USAGE, REFUSED, SPENT, LIMIT, FILE_FAULT, OUT_OF_MEMORY, REJECTED = range(9)

Value = Union[None, int, str]
Row = tuple[Value, ...]

# Possessive, so that the quotes of a long text are read once.
TEXT = re.compile(r"'(?:[^']++|'')*+'")
NUMBER = re.compile(r"-?[0-9]{1,40}")
PLACE = re.compile(
    r"(?:syntax fault near byte|(?:not UTF-8|number past 128 bits) at byte"
    r"|(?:text|comment) without end from byte|unexpected byte at) ([0-9]{1,9})"
)
PASSED = re.compile(r"^ratest: limit: (.+)\Z", re.MULTILINE | re.DOTALL)
GRADE = re.compile(r"(agree|undecided|too long|witness [0-9]{1,9}|work [0-9]{1,40}|refused: )")


class Kept(NamedTuple):
    """A row that is kept."""

    table: str
    number: int  # in its table's file, from 1
    cells: Row


@dataclass(frozen=True)
class Agree:
    """The queries answer alike on every lawful part of the rows."""


@dataclass(frozen=True)
class Never:
    """On no lawful part of the rows the first query alone answers with the row."""


@dataclass(frozen=True)
class Witness:
    """The fewest rows on which the queries answer differently, and both answers on them."""

    kept: tuple[Kept, ...]
    only_first: tuple[Row, ...]
    only_second: tuple[Row, ...]
    both: tuple[Row, ...]


@dataclass(frozen=True)
class Undecided:
    """The budget was spent; the best rows so far, None where none are known."""

    conflicts: int
    best: tuple[Kept, ...] | None


@dataclass(frozen=True)
class Refused:
    """A text that is not accepted."""

    part: str  # schema, table NAME, query 1, query 2, queries or row
    fault: str
    place: int | None  # the byte of the text that the fault tells


@dataclass(frozen=True)
class Limit:
    """A limit of size or work that was passed."""

    fault: str


Outcome = Union[Agree, Never, Witness, Undecided, Refused, Limit]


@dataclass(frozen=True)
class Grade:
    """What one line of many grades says of a query."""

    kind: str  # agrees, differs, undecided, refused or limit
    rows: int | None  # of the witness, where it differs
    fault: str  # why it is refused, or the limit


class Unreadable(Exception):
    """The text has another form than what the programs print."""


def outcome_of(status: int, out: str, err: str, tables: Sequence[Table]) -> Outcome:
    """The outcome of one call of `ratest`, `ratest_plus ra` or `ratest_plus row` over these
    tables."""
    if status in (FINE, WITNESS, SPENT):
        outcome = _Reader(out, {table.name: len(table.columns) for table in tables}).outcome()
        fits: dict[int, tuple[type, ...]] = {
            FINE: (Agree, Never),
            WITNESS: (Witness,),
            SPENT: (Undecided,),
        }
        if isinstance(outcome, fits[status]):
            return outcome
    elif status == REFUSED:
        refused = refusal(err, tables)
        if refused:
            return refused
    elif status == LIMIT:
        limit = PASSED.search(err)
        if limit:
            return Limit(limit[1].removesuffix("\n"))
    raise Unreadable


def refusal(err: str, tables: Sequence[Table]) -> Refused | None:
    """The refusal in what was printed on standard error.

    A first run of the launcher says there how far its build is, so it isn't always the first line.
    A name in it may hold anything, so known names are tried, the longest first, and it goes to the
    end."""
    names = sorted((table.name for table in tables), key=len, reverse=True)
    parts = ["schema", "query 1", "query 2", "queries", "row", *(f"table {name}" for name in names)]
    found = re.search(
        rf"^ratest: ({'|'.join(map(re.escape, parts))}|table .+?): (.+)\Z",
        err,
        re.MULTILINE | re.DOTALL,
    )
    if not found:
        return None
    fault = found[2].removesuffix("\n")
    place = PLACE.fullmatch(fault)
    return Refused(found[1], fault, int(place[1]) if place else None)


def grades_of(out: str, names: Sequence[str]) -> list[Grade]:
    """The grades of a list of these names, none of which may hold a line end."""
    reader = _Reader(out, {})
    grades = [reader.grade(name, names[at + 1 :]) for at, name in enumerate(names)]
    if reader.count("graded") != len(names):
        raise Unreadable
    reader.end()
    return grades


def valid_of(out: str) -> int | None:
    """What a certificate that is valid shows: the size of the witness, or None where the queries
    agree."""
    found = re.fullmatch(r"valid: (?:agree|witness ([0-9]{1,9}))\n", out)
    if not found:
        raise Unreadable
    return int(found[1]) if found[1] else None


def rejected_of(err: str) -> str:
    """Why a certificate is rejected, or is none."""
    found = re.fullmatch(r"ratest: certificate: (?:rejected: )?(.+)\n", err)
    if not found:
        raise Unreadable
    return found[1]


class _Reader:
    """Reads a printed text from the left."""

    def __init__(self, text: str, widths: Mapping[str, int]) -> None:
        self.text = text
        self.widths = dict(sorted(widths.items(), key=lambda item: -len(item[0])))
        self.at = 0

    def outcome(self) -> Outcome:
        outcome: Outcome
        if self.text.startswith("witness: "):
            kept = self.kept_rows(self.count("witness"))
            outcome = Witness(
                kept,
                *(self.answer_rows(words) for words in ("only query 1", "only query 2", "both")),
            )
        elif self.text.startswith("undecided: "):
            self.take("undecided: ")
            conflicts = int(self.take("[0-9]{1,20}"))
            self.take(" conflicts\n")
            best = self.kept_rows(self.count("best so far")) if self.at < len(self.text) else None
            outcome = Undecided(conflicts, best)
        else:
            outcome = Agree() if self.take("agree\n|never\n") == "agree\n" else Never()
        self.end()
        return outcome

    def end(self) -> None:
        if self.at < len(self.text):
            raise Unreadable

    def take(self, pattern: str | re.Pattern[str]) -> str:
        match = re.compile(pattern).match(self.text, self.at)
        if not match:
            raise Unreadable
        self.at = match.end()
        return match[0]

    def count(self, words: str) -> int:
        self.take(words + ": ")
        count = int(self.take("[0-9]{1,9}"))
        self.take("\n")
        return count

    def cell(self) -> Value:
        if self.text.startswith("NULL", self.at):
            self.at += 4
            return None
        if self.text.startswith("'", self.at):
            return self.take(TEXT)[1:-1].replace("''", "'")
        return int(self.take(NUMBER))

    def row(self) -> Row:
        cells = [self.cell()]
        while self.text.startswith(", ", self.at):
            self.at += 2
            cells.append(self.cell())
        self.take("\n")
        return tuple(cells)

    def kept_row(self) -> Kept:
        """A row behind its table's name and number. One table may be named `t` and another `t 1:
        5`, so each name is tried, the longest first."""
        start = self.at
        for table, width in self.widths.items():
            self.at = start
            try:
                self.take(re.escape(table) + " ")
                number = int(self.take("[1-9][0-9]{0,8}"))
                self.take(": ")
                cells = self.row()
            except Unreadable:
                continue
            if len(cells) == width:
                return Kept(table, number, cells)
        raise Unreadable

    def kept_rows(self, count: int) -> tuple[Kept, ...]:
        return tuple(self.kept_row() for _ in range(count))

    def answer_rows(self, words: str) -> tuple[Row, ...]:
        rows = []
        for _ in range(self.count(words)):
            self.take("  ")
            rows.append(self.row())
        return tuple(rows)

    def grade(self, name: str, later: Sequence[str]) -> Grade:
        """The grade in the line of this name. The names that come later are what ends a refusal,
        since a name in it may hold line ends."""
        self.take(re.escape(name) + ": ")
        said = self.take(GRADE)
        if said == "refused: ":
            stop = re.escape(f"\n{later[0]}: ") if later else r"\ngraded: [0-9]+\n\Z"
            found = re.compile(stop).search(self.text, self.at)
            if not found:
                raise Unreadable
            fault, self.at = self.text[self.at : found.start()], found.start() + 1
            return Grade("refused", None, fault)
        self.take("\n")
        kind, _, number = said.partition(" ")
        if kind == "witness":
            return Grade("differs", int(number), "")
        return {"agree": Grade("agrees", None, ""), "undecided": Grade("undecided", None, "")}.get(
            said, Grade("limit", None, said)
        )
