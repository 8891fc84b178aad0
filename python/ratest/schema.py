"""The tables and columns of a `schema.sql`, in the words that `ratest` reads.

Only names and kinds are read here. Whether the text is a schema at all says `ratest`, which is
asked first. """
from __future__ import annotations

import re
from collections.abc import Iterator
from dataclasses import dataclass

TOKEN = re.compile(
    r"""(?P<gap>(?:[ \t\r\n\f]|--[^\n]*|/\*.*?\*/)+)
    |(?P<word>[A-Za-z_][A-Za-z0-9_]*)
    |(?P<quoted>"(?:[^"]|"")*+")
    |(?P<text>'(?:[^']|'')*+')
    |(?P<other>.)""",
    re.VERBOSE | re.DOTALL,
)
KINDS = {
    "integer": "INTEGER",
    "int": "INTEGER",
    "bigint": "INTEGER",
    "text": "TEXT",
    "char": "TEXT",
    "varchar": "TEXT",
}
MARK = "\ufeff"
RULES = ("constraint", "primary", "unique", "foreign", "check", "dependency")
PLAIN = re.compile(r"[a-z_][a-z0-9_]*")
RESERVED = frozenset(
    "all and as between case cast check constraint create cross distinct except exists foreign from"
    " full group having in inner intersect is join left like limit natural not null on or order"
    " outer primary references right select table union unique using where with".split()
)


class NoSchema(ValueError):
    """Why no tables can be read of a text."""


@dataclass(frozen=True)
class Column:
    """A column; its name as `ratest` holds it, small where it was not quoted."""

    name: str
    kind: str  # INTEGER or TEXT


@dataclass(frozen=True)
class Table:
    """A table, whose rows stand in the file NAME.csv."""

    name: str
    columns: tuple[Column, ...]


@dataclass(frozen=True)
class Token:
    kind: str  # word, quoted, text or other
    text: str  # a word in small letters, a name without its quotes


def tokens(text: str) -> Iterator[Token]:
    """The tokens of a schema, without white space and comments."""
    for match in TOKEN.finditer(text):
        kind = match.lastgroup or "other"
        if kind == "word":
            yield Token(kind, match[0].lower())
        elif kind == "quoted":
            yield Token(kind, match[0][1:-1].replace('""', '"'))
        elif kind != "gap":
            yield Token(kind, match[0])


def unmarked(text: str) -> str:
    """The text without a mark of byte order, of which one is dropped at the start of a file."""
    return text.removeprefix(MARK)


def marked(text: str) -> str:
    """The text of a file that is to be read as this one."""
    return MARK + text if text.startswith(MARK) else text


def tables_of(text: str) -> tuple[Table, ...]:
    """The tables of a schema in its order."""
    return tuple(
        Table(name, tuple(_column(item) for item in items if not _is_rule(item)))
        for name, items in items_of(text)
    )


def items_of(text: str) -> Iterator[tuple[str, list[list[Token]]]]:
    """The name of each table of a schema, with the tokens of each item between its parentheses;
    NoSchema where one has no end."""
    found = list(tokens(unmarked(text)))
    at = 0
    while at < len(found):
        at += 1
        if found[at - 1] == Token("word", "table"):
            if found[at : at + 3] == [Token("word", word) for word in ("if", "not", "exists")]:
                at += 3
            if at >= len(found) or found[at].kind not in ("word", "quoted"):
                raise NoSchema("a table without a name")
            name = found[at].text
            items, at = _items(found, at + 1)
            yield name, items


def _items(found: list[Token], at: int) -> tuple[list[list[Token]], int]:
    """The items between the parenthesis at a place and its end, and the place behind it."""
    depth, items = 0, [[]]  # type: int, list[list[Token]]
    while at < len(found):
        sign = found[at].text if found[at].kind == "other" else ""
        depth += (sign == "(") - (sign == ")")
        if depth == 0:
            break
        if depth == 1 and sign == ",":
            items.append([])
        elif depth > 1 or sign != "(":
            items[-1].append(found[at])
        at += 1
    if at == len(found) or not all(items):
        raise NoSchema("a table without an end")
    return items, at + 1


def _is_rule(item: list[Token]) -> bool:
    return item[0].kind == "word" and item[0].text in RULES


def _column(item: list[Token]) -> Column:
    return Column(item[0].text, KINDS.get(item[1].text if len(item) > 1 else "", "TEXT"))


def spelled(name: str) -> str:
    """A name as SQL reads it, in quotes where it needs them."""
    return name if PLAIN.fullmatch(name) and name not in RESERVED else quoted(name)


def quoted(name: str) -> str:
    return '"' + name.replace('"', '""') + '"'


def literal(value: int | str | None) -> str:
    """A value as a constant of SQL."""
    if value is None:
        return "NULL"
    return str(value) if isinstance(value, int) else "'" + value.replace("'", "''") + "'"
