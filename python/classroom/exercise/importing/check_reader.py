"""Reads the condition of a CHECK in the words of a database, as far as `ratest` has them too."""
from __future__ import annotations

import re
from collections.abc import Callable, Mapping, Sequence
from dataclasses import dataclass
from typing import ClassVar, NoReturn, Union

from classroom.exercise.importing.checks import (
    EQUALITY,
    ORDER,
    Check,
    Joined,
    Leaf,
    Node,
    Not,
    Side,
    Unread,
    conditions_of,
)
from classroom.sql.tokens import Dialect
from classroom.sql.tokens import tokens as read

# What an operand may turn out to be: a condition in parentheses, a side, or a list of sides.
Operand = Union[Node, Side, list[Side]]

SIGNS = {"=": "=", "==": "=", "<>": "<>", "!=": "<>", "<": "<", "<=": "<=", ">": ">", ">=": ">="}
MOST_DEPTH = 50


@dataclass(frozen=True)
class Token:
    kind: str  # word, number, sign, end, or the quote that opens it
    text: str  # without its quotes
    start: int
    stop: int

    def says(self, *words: str) -> bool:
        return self.kind == "word" and self.text.upper() in words


def tokens(text: str, dialect: Dialect) -> list[Token]:
    made = []
    for one in read(text, dialect):
        kind, inside = one.kind, one.name
        if kind in ("quoted", "text"):
            # A text that begins with a letter, as X'00', is no plain constant: X is told.
            letter = one.text[0] not in "'\"`["
            kind, inside = (
                ("word", re.split("['\"]", one.text)[0])
                if letter
                else (
                    one.text[0],
                    inside,
                )
            )
        made.append(Token(kind, inside, one.begin, one.end))
    return made


def shortened(text: str, found: Sequence[Token]) -> str:
    """The text of some tokens in one line, without its comments."""
    shown, stop = "", found[0].start
    for token in found:
        shown += (" " if stop < token.start else "") + text[token.start : token.stop]
        stop = token.stop
    return shown


class Reader:
    """Reads one condition, with the sides that its names stand for. What differs by product is in
    subclasses."""

    dialect: ClassVar[Dialect]  # of its tokens

    def __init__(self, text: str, sides: Mapping[str, Side]) -> None:
        self.sides = sides
        self.tokens = tokens(text, self.dialect) + [Token("end", "", len(text), len(text))]
        self.at = self.depth = 0

    def check(self, name: str) -> Check:
        try:
            node = self.condition(self.any_of())
            if self.here.kind != "end":
                self.stop()
            conditions = conditions_of(node)
            sides = [
                side
                for parts in conditions
                for part in parts
                for leaf in part
                for side in leaf.sides
            ]
            return Check(
                name, {side.column for side in sides if side.column is not None}, conditions
            )
        except Unread as why:
            named = [self.side_of(token) for token in self.tokens]
            return Check(
                name,
                {side.column for side in named if side and side.column is not None},
                why=str(why),
            )

    @property
    def here(self) -> Token:
        return self.tokens[self.at]

    @property
    def after(self) -> Token:
        return self.tokens[min(self.at + 1, len(self.tokens) - 1)]

    def next_is(self, sign: str) -> bool:
        return (self.after.kind, self.after.text) == ("sign", sign)

    def take(self, *words: str) -> bool:
        if self.here.says(*words):
            self.at += 1
            return True
        return False

    def take_sign(self, *signs: str) -> str | None:
        if self.here.kind == "sign" and self.here.text in signs:
            self.at += 1
            return self.tokens[self.at - 1].text
        return None

    def expect(self, *signs: str) -> str:
        return self.take_sign(*signs) or self.stop()

    def stop(self) -> NoReturn:
        token = self.here
        if token.kind == "sign" and token.text not in "(),.;[]":
            raise Unread(f"has the operator {token.text}")
        if token.kind == "word":
            raise Unread(f"has the word {token.text}")
        raise Unread("has a form that is not read")

    def any_of(self) -> Operand:
        return self.joined("OR", lambda: self.joined("AND", self.negation))

    def joined(self, word: str, part: Callable[[], Operand]) -> Operand:
        of = [part()]
        while self.take(word):
            of.append(part())
        return of[0] if len(of) == 1 else Joined(word, [self.condition(node) for node in of])

    def negation(self) -> Operand:
        count = 0
        while self.take("NOT"):
            count += 1
        node = self.comparison()
        if not count:
            return node
        return Not(self.condition(node)) if count % 2 else self.condition(node)

    def condition(self, node: Operand) -> Node:
        if isinstance(node, (Leaf, Joined, Not)):
            return node
        if self.here.kind == "end" or self.here.says("AND", "OR") or self.here.text == ")":
            raise Unread("is no comparison")
        self.stop()

    def side(self) -> Side:
        return self.need_side(self.operand())

    def need_side(self, node: Operand) -> Side:
        if not isinstance(node, Side):
            raise Unread("compares conditions")
        return node

    def comparison(self) -> Operand:
        """A leaf, or the operand alone where nothing compares it."""
        left = self.operand()
        sign = self.take_sign(*SIGNS)
        if sign:
            return self.compared(self.need_side(left), SIGNS[sign])
        if not self.here.says("IS", "ISNULL", "NOTNULL", "NOT", "BETWEEN", "IN"):
            return left
        return self.tested(self.need_side(left))

    def tested(self, left: Side) -> Leaf:
        """What stands behind a side that no sign compares."""
        if self.take("IS"):
            word = "IS NOT NULL" if self.take("NOT") else "IS NULL"
            return Leaf("{} " + word, (left,)) if self.take("NULL") else self.stop()
        if self.take("ISNULL"):
            return Leaf("{} IS NULL", (left,))
        if self.take("NOTNULL"):
            return Leaf("{} IS NOT NULL", (left,))
        word = "NOT " if self.take("NOT") else ""
        if word and self.take("NULL"):
            return Leaf("{} IS NOT NULL", (left,))
        if self.take("BETWEEN"):
            return self.between(left, word)
        return self.one_of(left, word) if self.take("IN") else self.stop()

    def compared(self, left: Side, sign: str) -> Leaf:
        return Leaf("{} " + sign + " {}", self.fit(sign, left, self.side()))

    def between(self, left: Side, word: str) -> Leaf:
        left, low = self.fit(">=", left, self.side())
        left, high = self.fit("<=", left, self.side() if self.take("AND") else self.stop())
        return Leaf("{} " + word + "BETWEEN {} AND {}", (left, low, high))

    def one_of(self, left: Side, word: str) -> Leaf:
        self.expect("(")
        return self.listed(left, word, self.sides_until(")"))

    def sides_until(self, end: str) -> list[Side]:
        sides: list[Side] = []
        while not self.take_sign(end):
            if sides:
                self.expect(",")
            sides.append(self.side())
        return sides

    def listed(self, left: Side, word: str, members: Sequence[Side]) -> Leaf:
        if not members:
            raise Unread("has a list of nothing")
        pairs = [self.fit("=", left, member) for member in members]
        form = "{} " + word + "IN (" + ", ".join("{}" for _ in pairs) + ")"
        return Leaf(form, (pairs[0][0], *(member for _, member in pairs)))

    def fit(self, sign: str, left: Side, right: Side) -> tuple[Side, Side]:
        """Both sides as they are written; refuses them where `ratest` would compare them
        otherwise."""
        kinds = {left.kind, right.kind} & {"INTEGER", "TEXT"}
        if len(kinds) == 2:
            raise Unread("compares a whole number with a text")
        if "TEXT" in kinds:
            self.fit_texts(sign, left, right)
        return left, right

    def fit_texts(self, sign: str, left: Side, right: Side) -> None:
        told = [side.texts for side in (left, right) if side.told and side.texts is not None]
        says = told or [side.texts for side in (left, right) if side.texts is not None]
        if sign in ("=", "<>") and min(says, default=EQUALITY) < EQUALITY:
            raise Unread("compares texts otherwise than by their bytes")
        if sign not in ("=", "<>") and not says:
            raise Unread("orders constants")
        if sign not in ("=", "<>") and min(says) < ORDER:
            raise Unread("orders texts otherwise than by their bytes")

    def operand(self) -> Operand:
        node = self.primary()
        while self.take("COLLATE"):
            node = self.collated(self.need_side(node), self.here.text)
            self.at += 1
        return node

    def primary(self) -> Operand:
        token = self.here
        if self.take_sign("("):
            return self.inner()
        if token.kind == "number" or self.after.kind == "number" and self.take_sign("-"):
            return self.number("" if token.kind == "number" else "-")
        if token.kind in ("sign", "end"):
            self.stop()
        if token.kind != "'" and self.next_is("("):
            raise Unread(f"calls {token.text}")
        if token.kind != "'" and self.next_is("."):
            return self.qualified()
        side = self.side_of(token)
        if side is None and token.kind == "word":
            self.stop()
        if side is None:
            raise Unread(f"names {token.text}, which is no column")
        self.at += 1
        return side

    def inner(self) -> Operand:
        self.depth += 1
        if self.depth > MOST_DEPTH:
            raise Unread("is nested too deep")
        node = self.any_of()
        self.depth -= 1
        self.expect(")")
        return node

    def number(self, minus: str) -> Side:
        text = minus + self.here.text
        if not re.fullmatch("-?[0-9]+", text):
            raise Unread(f"has the number {text}, which is not whole")
        if len(text) > 20 or not -(2**63) <= int(text) < 2**63:
            raise Unread(f"has the number {text}, which is past 64 bits")
        self.at += 1
        return Side(value=int(text), kind="INTEGER")

    def side_of(self, token: Token) -> Side | None:
        """The side that a token alone stands for; None where there is none."""
        if token.kind == "'":
            return Side(value=token.text, kind="TEXT")
        if token.kind in ("number", "sign", "end"):
            return None
        return Side() if token.says("NULL") else self.named(token)

    def named(self, token: Token) -> Side | None:
        raise NotImplementedError

    def collated(self, side: Side, name: str) -> Side:
        raise NotImplementedError

    def qualified(self) -> Side:
        self.at += 1
        self.stop()
