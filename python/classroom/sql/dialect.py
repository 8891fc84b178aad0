"""A query of `ratest` as SQLite reads it: SQLite has no parentheses around an operand of a set
operator, and takes all set operators from the left, where INTERSECT goes first."""
from __future__ import annotations

import re

from classroom.sql.tokens import Token, tokens

SETS = ("union", "except", "intersect")
MAY_NEED = re.compile(r"\b(?:union|except|intersect)\b|\(\s*\(|\A\W*\(", re.IGNORECASE)


def for_sqlite(query: str) -> str:
    if not MAY_NEED.search(query):
        return query
    found = tokens(query)
    text, at = _Writer(query, found).chain(0)
    rest = [query[token.begin : token.end] for token in found[at:] if token.word != ";"]
    return " ".join([text, *rest])


def with_sets(query: str, is_read: bool = False) -> str | None:
    """A query with its operands and INTERSECT as SQLite wants them; None of one that has them so,
    and, where SQLite reads it as it is, of one whose operators it takes in the right order."""
    if not MAY_NEED.search(query):
        return None
    made = _Writer(query, tokens(query))
    made.chain(0)
    return for_sqlite(query) if made.is_regrouped or made.is_opened and not is_read else None


class _Writer:
    def __init__(self, text: str, found: list[Token]) -> None:
        self.text = text
        self.found = found
        self.queries = self.found_queries()
        self.is_regrouped = self.is_opened = False

    def word(self, at: int) -> str:
        return self.found[at].word if at < len(self.found) else ""

    def found_queries(self) -> set[int]:
        """The parentheses that have a query in them, in further ones or not."""
        closed: dict[int, int] = {}
        opened: list[int] = []
        for at in range(len(self.found)):
            if self.word(at) == "(":
                opened.append(at)
            elif self.word(at) == ")" and opened:
                closed[opened.pop()] = at
        made: set[int] = set()
        for at in sorted(closed, reverse=True):
            if self.word(at + 1) == "select" or (
                at + 1 in made
                and (
                    self.word(after := closed[at + 1] + 1) in (")", *SETS) or self.ends_whole(after)
                )
            ):
                made.add(at)
        return made

    def chain(self, at: int) -> tuple[str, int]:
        """Operands, set operators and what orders and cuts the whole, up to a closing parenthesis
        or the end, and the place behind them."""
        operand, at = self.operand(at)
        operands, signs = [operand], []
        while self.word(at) in SETS:
            sign = self.found[at].text
            at += 1
            if self.word(at) in ("all", "distinct"):
                sign += " ALL" if self.word(at) == "all" else ""
                at += 1
            operand, at = self.operand(at)
            operands.append(operand)
            signs.append(sign)
        place = 1
        while place < len(signs):
            if signs[place].lower() == "intersect" and signs[place - 1].lower() != "intersect":
                self.is_regrouped = True
                last = place
                while last < len(signs) and signs[last].lower() == "intersect":
                    last += 1
                inner = " INTERSECT ".join(operands[place : last + 1])
                operands[place : last + 1], signs[place:last] = [f"SELECT * FROM ({inner})"], []
            else:
                place += 1
        text = operands[0]
        for sign, operand in zip(signs, operands[1:]):
            text += f" {sign} {operand}"
        if self.ends_whole(at):
            rest, at = self.select(at, is_rest=True)
            text += f" {rest}"
        return text, at

    def ends_whole(self, at: int) -> bool:
        """Whether what stands here orders or cuts a whole chain."""
        return self.word(at) == "limit" or self.word(at) == "order" and self.word(at + 1) == "by"

    def operand(self, at: int) -> tuple[str, int]:
        if self.word(at) == "(":
            self.is_opened = True
            inner, at = self.chain(at + 1)
            return f"SELECT * FROM ({inner})", at + 1
        return self.select(at)

    def select(self, at: int, is_rest: bool = False) -> tuple[str, int]:
        """A SELECT, or the rest of a whole, up to what ends it."""
        parts, depth = [], 0
        while at < len(self.found):
            word = self.word(at)
            if depth == 0 and (word in SETS or word in (")", ";")):
                break
            if depth == 0 and not is_rest and self.ends_whole(at):
                break
            if at in self.queries:
                inner, at = self.chain(at + 1)
                parts.append(f"({inner})")
            else:
                depth += (word == "(") - (word == ")")
                token = self.found[at]
                parts.append(self.text[token.begin : token.end])
            at += 1
        return " ".join(parts), at
