"""The CHECKs and the collations of an SQLite table, of which its catalogue tells in the statement
alone that made it.

What this reads is a statement that SQLite has accepted. Its words are told from names by their
quotes, since CHECK, COLLATE and CONSTRAINT can't be names without. """
from __future__ import annotations

import re
from collections.abc import Iterator, Mapping, Sequence
from dataclasses import replace

from classroom.exercise.importing.checks import EQUALITY, NOTHING, ORDER, Check, Leaf, Side, Unread
from classroom.exercise.importing.model import Column
from classroom.exercise.importing.check_reader import Reader, Token, shortened, tokens
from classroom.base.errors import shown
from classroom.sql.tokens import Dialect

ROWID = ("rowid", "_rowid_", "oid")
# The affinity of columns of moments: SQLite makes numbers of the texts that they are compared with.
NUMERIC = "numeric"
NUMBER = re.compile(
    r"[ \t\n\v\f\r]*[-+]?([0-9]+\.?[0-9]*|\.[0-9]+)([eE][-+]?[0-9]+)?[ \t\n\v\f\r]*"
)
Items = list[list[tuple[Token, int]]]


def fold(name: str) -> str:
    """SQLite compares names without the case of ASCII letters."""
    return re.sub("[A-Z]+", lambda found: found[0].lower(), name)


class Condition(Reader):
    dialect = Dialect.SQLITE

    def __init__(self, text: str, sides: Mapping[str, Side], table: str, binary: int) -> None:
        super().__init__(text, sides)
        self.table, self.binary = table, binary

    def named(self, token: Token) -> Side | None:
        side = self.sides.get(fold(token.text))
        if side is None and token.kind == '"' and fold(token.text) not in ROWID:
            # What is no column is a text.
            return Side(value=token.text, kind="TEXT")
        return side

    def qualified(self) -> Side:
        if fold(self.here.text) != fold(self.table):
            self.stop()
        self.at += 2
        side = self.sides.get(fold(self.here.text))
        if side is None or self.next_is("."):
            self.stop()
        self.at += 1
        return side

    def collated(self, side: Side, name: str) -> Side:
        return replace(side, texts=shared(name, self.binary), told=True)

    def listed(self, left: Side, word: str, members: Sequence[Side]) -> Leaf:
        if any(member.told for member in members):
            # Whether it counts hangs on the number of members.
            raise Unread("has COLLATE in a list")
        return super().listed(left, word, members)

    def fit_texts(self, sign: str, left: Side, right: Side) -> None:
        super().fit_texts(sign, left, right)
        for side, other in ((left, right), (right, left)):
            if (
                side.type == NUMERIC
                and other.type != NUMERIC
                and (
                    other.column is not None
                    or isinstance(other.value, str)
                    and NUMBER.fullmatch(other.value)
                )
            ):
                raise Unread("compares a text as a number")


def shared(collation: str, binary: int) -> int:
    return binary if fold(collation) == "binary" else NOTHING


def items_of(found: Sequence[Token]) -> Items:
    """The items of CREATE TABLE, each a list of pairs: a token, and how many parentheses it stands
    in."""
    depth = 0
    items: Items = [[]]
    for token in found:
        sign = token.text if token.kind == "sign" else ""
        depth -= sign == ")"
        if depth == 1 and sign == ",":
            items.append([])
        elif depth >= 1:
            items[-1].append((token, depth))
        depth += sign == "("
    return items


def collations_of(items: Items) -> dict[str, str]:
    """By the folded names of columns. The last COLLATE of a column counts."""
    found = {}
    for item in items:
        if not item[0][0].says("CONSTRAINT", "PRIMARY", "UNIQUE", "CHECK", "FOREIGN"):
            for (token, depth), (name, _) in zip(item, item[1:]):
                if depth == 1 and token.says("COLLATE"):
                    found[fold(item[0][0].text)] = name.text
    return found


def bodies_of(items: Items) -> Iterator[tuple[str | None, list[Token]]]:
    """The name of each CHECK, or None, and the tokens between its parentheses."""
    for item in items:
        for at, (token, depth) in enumerate(item):
            if depth == 1 and token.says("CHECK"):
                inside = []
                for part, deeper in item[at + 2 :]:
                    if deeper == 1:
                        break
                    inside.append(part)
                is_named = at >= 2 and item[at - 2][0].says("CONSTRAINT")
                yield item[at - 1][0].text if is_named else None, inside


def has_collation(statement: str) -> bool:
    return any(token.says("COLLATE") for token in tokens(statement, Dialect.SQLITE))


def checks_of(
    statement: str, table: str, columns: Sequence[Column], encoding: str, moments: Sequence[str]
) -> Iterator[Check]:
    """The CHECKs of a table, which may name these columns, of which some are of moments."""
    # The collation BINARY orders texts of UTF-16 by the bytes of that.
    binary = ORDER if encoding == "utf-8" else EQUALITY
    items = items_of(tokens(statement, Dialect.SQLITE))
    collations = collations_of(items)
    sides = {
        fold(column.name): Side(
            column.name,
            kind=column.kind,
            type=NUMERIC if column.name in moments else "",
            texts=shared(collations.get(fold(column.name), "BINARY"), binary),
        )
        for column in columns
    }
    for name, found in bodies_of(items):
        text = statement[found[0].start : found[-1].stop]
        told = shown(name) if name is not None else f"({shown(shortened(statement, found))})"
        yield Condition(text, sides, table, binary).check(told)
