"""What a student handed in as bytes, as the text of one query.

UTF-8, with a mark of byte order or without, is read as it is; UTF-16 with its mark, Windows-1252
and Latin-1 are told by a remark. What tools put around a query (see `sql.wrappers`) is left out,
each with a remark that has its line; so are signs of a word processor told, which stay."""
from __future__ import annotations

import codecs
from collections.abc import Sequence
from dataclasses import dataclass

from classroom.base.files import NotRead
from classroom.sql.tokens import GAPS, Dialect, pieces
from classroom.sql.wrappers import unwrapped

MOST_BYTES = 65_536
LATIN_1, WINDOWS, UTF_16 = "read as Latin-1", "read as Windows-1252", "read as UTF-16"
# Characters that a word processor or another system puts where a query has others.
ODD = {
    "\r": "a carriage return",
    "\t": "a tab",
    "\u00a0": "a no-break space",
    "\u202f": "a narrow no-break space",
    "\u2007": "a figure space",
    "\u200b": "a space without width",
    "\u00b4": "an accent for a quote",
    "\u2013": "a dash for a minus sign",
    "\u2014": "a dash for a minus sign",
    "\u2212": "a minus sign of its own",
    "\u2026": "an ellipsis",
    **dict.fromkeys(
        "\u2018\u2019\u201a\u201b\u201c\u201d\u201e\u201f\u00ab\u00bb\u2039\u203a",
        "a typographic quote",
    ),
}


# Two of which ratest alone refuses the first; they are no slip that one sees in the text.
INVISIBLE = "\r\t"
MOST_TOLD = 3
# First words of statements that are no query, and those that another word tells more of.
STATEMENTS = frozenset(
    "insert update delete merge replace create alter drop truncate grant revoke".split()
)
WITH_KIND = ("create", "alter", "drop")


@dataclass(frozen=True)
class CleanText:
    """A text that was handed in."""

    whole: bytes = b""  # as UTF-8
    query: bytes = (  # the one statement in it, its bytes at the places that they have in the whole
        b""
    )
    remarks: tuple[str, ...] = ()


def text_of(raw: bytes, dialect: Dialect = Dialect.SQLITE) -> CleanText:
    """The text of these bytes; NotRead where they are more than MOST_BYTES, no text, several
    statements, or one that is no query by its first word."""
    if len(raw) > MOST_BYTES:
        raise NotRead("more than 64 KiB")
    text, remarks = decoded(raw)
    if "\0" in text:
        raise NotRead("no text: it has zero bytes, as UTF-16 without its mark")
    whole = text.encode()
    plain, dropped = unwrapped(text, dialect)
    query = statement(plain, dialect)
    return CleanText(
        whole, query.encode(), (*remarks, *limited(dropped), *limited(odd_signs(query, dialect)))
    )


def limited(remarks: Sequence[str]) -> tuple[str, ...]:
    """The first of them, and how many more there are."""
    more = len(remarks) - MOST_TOLD
    return (*remarks[:MOST_TOLD], *([f"and {more} more of the kind"] if more > 0 else []))


def decoded(raw: bytes) -> tuple[str, tuple[str, ...]]:
    """The characters, and what has to be said of their encoding."""
    if raw.startswith((codecs.BOM_UTF16_LE, codecs.BOM_UTF16_BE)):
        try:
            return raw.decode("utf-16"), (UTF_16,)
        except UnicodeDecodeError:
            raise NotRead("no text: it begins as UTF-16 and is none") from None
    try:
        return raw.decode(), ()
    except UnicodeDecodeError:
        pass
    if any(0x80 <= byte < 0xA0 for byte in raw):
        try:
            return raw.decode("cp1252"), (WINDOWS,)
        except UnicodeDecodeError:
            pass
    return raw.decode("latin-1"), (LATIN_1,)


def statement(text: str, dialect: Dialect = Dialect.SQLITE) -> str:
    """The one statement of a text: what stands before it is kept in place, signs that end nothing
    as blanks. NotRead where there are several, or where it is no query by its first word."""
    read = list(pieces(text, dialect))
    # The first and the last token of each part between semicolons, None where it has none.
    parts: list[tuple[int, int] | None] = [None]
    for at, token in enumerate(read):
        if token.text == ";":
            parts.append(None)
        elif token.kind not in GAPS:
            first = parts[-1][0] if parts[-1] else at
            parts[-1] = first, at
    filled = [part for part in parts if part]
    if len(filled) > 1:
        raise NotRead("more than one statement")
    for first, _ in filled:
        words = [token.word for token in read[first:] if token.kind not in GAPS][:4]
        if words[0] in STATEMENTS:
            raise NotRead(f"it is {named(words)}, and no query")
    if not filled or len(parts) == 1 or parts[0] and len(parts) == 2:
        return text
    first, last = filled[0]
    before = "".join(" " if token.text == ";" else token.text for token in read[:first])
    return before + text[read[first].begin : read[last].end]


def backquoted(query: str) -> str:
    """The query with its names in backquotes, which SQLite never takes for texts."""
    return "".join(
        (
            "`" + token.name.replace("`", "``") + "`"
            if token.kind == "quoted" and token.text[0] == '"'
            else token.text
        )
        for token in pieces(query)
    )


def named(words: Sequence[str]) -> str:
    """A statement by its first words, as "an INSERT" or "a CREATE VIEW"."""
    name = words[0].upper()
    if words[0] in WITH_KIND:
        kinds = [word for word in words[1:] if word not in ("or", "replace", "temp", "temporary")]
        name = " ".join([name, *(word.upper() for word in kinds[:1] if word.isalpha())])
    return f"{'an' if name[0] in 'AIU' else 'a'} {name}"


def odd_signs(text: str, dialect: Dialect = Dialect.SQLITE) -> list[str]:
    """The signs that a word processor or another system made outside of texts, names in quotes and
    comments, each with its line and column."""
    told = []
    line, start = 1, 0  # of the line, by characters
    for token in pieces(text, dialect):
        is_code = token.kind in ("space", "sign", "word")
        for at, sign in enumerate(token.text, token.begin):
            if sign == "\n":
                line, start = line + 1, at + 1
            elif is_code and sign in ODD and sign not in INVISIBLE:
                told.append(f"{ODD[sign]} at line {line}, column {at - start + 1}")
    return told
