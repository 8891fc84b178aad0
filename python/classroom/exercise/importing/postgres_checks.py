"""The conditions of CHECKs as PostgreSQL gives them: with all parentheses, and with the casts that
it put in."""
from __future__ import annotations

import re
from collections.abc import Mapping
from dataclasses import replace

from classroom.exercise.importing.checks import NOTHING, Leaf, Side, Unread
from classroom.exercise.importing.dates import padded
from classroom.exercise.importing.check_reader import Operand, Reader, Token
from classroom.sql.tokens import Dialect

# A whole NUMERIC may have more than 64 bits.
BITS = {"boolean": 2, "smallint": 16, "integer": 32, "bigint": 64, "numeric": 1000}
MOMENTS = (
    "date",
    "time without time zone",
    "timestamp without time zone",
    "timestamp with time zone",
)
TEXTS = ("text", "character varying", "bpchar")


class Condition(Reader):
    dialect = Dialect.POSTGRESQL

    def __init__(self, text: str, sides: Mapping[str, Side], in_c: int, digits: int) -> None:
        super().__init__(text, sides)
        self.digits = digits  # of the fraction of a second in each moment
        self.in_c = in_c  # what the collation "C" shares with the order of bytes of UTF-8

    def named(self, token: Token) -> Side | None:
        if token.says("TRUE", "FALSE"):
            return Side(value=int(token.says("TRUE")), kind="INTEGER", type="boolean")
        return self.sides.get(token.text)

    def primary(self) -> Operand:
        if self.here.says("ARRAY") and self.next_is("["):
            self.at += 2
            node: Operand = self.sides_until("]")
        else:
            node = super().primary()
        while self.take_sign("::"):
            node = self.cast(node)
        return node

    def compared(self, left: Side, sign: str) -> Leaf:
        word = self.here.text.upper() if self.here.says("ANY", "ALL") and self.next_is("(") else ""
        if not word:
            return super().compared(left, sign)
        self.at += 2
        members = self.operand()
        self.expect(")")
        if (sign, word) not in (("=", "ANY"), ("<>", "ALL")) or not isinstance(members, list):
            raise Unread(f"has the word {word}")
        return self.listed(left, "" if word == "ANY" else "NOT ", members)

    def fit_texts(self, sign: str, left: Side, right: Side) -> None:
        if any(side.type in MOMENTS for side in (left, right)):
            # They have no collation, and texts of one form are in their order.
            if len({side.type for side in (left, right) if side != Side()}) > 1:
                raise Unread("compares moments of different types")
            return
        super().fit_texts(sign, left, right)
        if len({side.type == "bpchar" for side in (left, right) if side.kind}) > 1:
            raise Unread("compares a CHAR with another text")

    def fit(self, sign: str, left: Side, right: Side) -> tuple[Side, Side]:
        # Blanks at the end of a CHAR(n) don't count; its column is exported without.
        left, right = super().fit(sign, left, right)
        return exported(left), exported(right)

    def cast(self, node: Operand) -> Operand:
        words = self.here.text
        self.at += 1
        if words == "character" and self.take("VARYING"):
            words = "character varying"
        if words in ("time", "timestamp") and self.here.says("WITH", "WITHOUT"):
            words += f" {self.here.text} time zone"
            self.at += 3
        if self.take_sign("("):
            words += f"({self.here.text})"
        if words not in (*BITS, *TEXTS, *MOMENTS):
            raise Unread(f"casts to {words}")
        if isinstance(node, list):
            self.expect("[")
            self.expect("]")
            return [self.cast_side(side, words) for side in node]
        return self.cast_side(self.need_side(node), words)

    def cast_side(self, side: Side, to: str) -> Side:
        if to not in MOMENTS or side == Side() or side.type == to:
            return cast(side, to)
        text = (
            padded(side.value, self.digits)
            if isinstance(side.value, str) and not side.type
            else None
        )
        if text is None:
            raise Unread(
                f"casts to {to}"
                if side.value is None or side.type
                else f"has the moment {side.value}"
            )
        return Side(value=text, kind="TEXT", type=to)

    def collated(self, side: Side, name: str) -> Side:
        return replace(side, texts=self.in_c if name in ("C", "POSIX") else NOTHING, told=True)


def exported(side: Side) -> Side:
    return stripped(side) if side.type == "bpchar" else side


def stripped(side: Side) -> Side:
    return replace(side, value=side.value.rstrip(" ")) if isinstance(side.value, str) else side


def holds(to: str, side: Side) -> bool:
    """Whether an integer type has all values of a side."""
    if side.column is not None:
        return BITS[side.type] <= BITS[to]
    return isinstance(side.value, int) and -(2 ** (BITS[to] - 1)) <= side.value < 2 ** (
        BITS[to] - 1
    )


def cast(side: Side, to: str) -> Side:
    """The side as it is after a cast that changes no value of it."""
    if side == Side():
        return side
    if to in BITS and isinstance(side.value, str) and not side.type:
        # A constant with its type, as '-5'::integer.
        if not re.fullmatch("-?[0-9]{1,19}", side.value):
            raise Unread(f"has the number {side.value}, which is not whole")
        return Side(value=int(side.value), kind="INTEGER", type=to)
    if to in BITS and side.kind == "INTEGER" and holds(to, side):
        return replace(side, type=to)
    if to in TEXTS and side.kind == "TEXT":
        if side.type == "bpchar":
            return replace(stripped(side), type=to)
        if to != "bpchar" or side.column is None:
            return replace(side, type=to)
    if side.kind is None:
        return side
    raise Unread(f"casts to {to}")
