"""The tokens of a text of SQL with their places, as one of three readers takes it.

This is the one place that knows where a comment, a text or a name in quotes ends. Joined, the
tokens of `pieces` are the text. The time is linear in the length of the text."""
from __future__ import annotations

import re
from collections.abc import Iterator
from enum import Enum
from typing import NamedTuple


class Dialect(Enum):
    """Whose text it is. SQLite's takes backquotes, brackets and `''` as MySQL and T-SQL, too."""

    RATEST = "ratest"
    SQLITE = "sqlite"
    POSTGRESQL = "postgresql"


# Possessive are single signs alone: Python 3.11.2 loses its place in a possessive group.
NUMBER = r"(?P<number>(?:0[xX][0-9a-fA-F]++|\d++(?:\.(?!\.)\d*+)?|\.\d++)(?:[eE][-+]?\d++)?)"
TEXT = r"'[^']*+(?:''[^']*+)*'(?!')"
QUOTED = r""""[^"]*+(?:""[^"]*+)*"(?!")"""
# What has no end goes to the end of the text: as a comment where its reader takes it so.
FORMS = {
    Dialect.RATEST: rf"""(?P<space>[ \t\r\n\f]++)
    |(?P<comment>--[^\n]*+|/\*.*?\*/)
    |(?P<word>[A-Za-z_][A-Za-z0-9_]*+)
    |{NUMBER}
    |(?P<quoted>{QUOTED})
    |(?P<text>{TEXT})
    |(?P<open>(?:['"]|/\*).*+)
    |(?P<sign><>|<=|>=|!=|\|\||.)""",
    Dialect.SQLITE: rf"""(?P<space>[\s\ufeff]++)
    |(?P<comment>--[^\n]*+|/\*.*?(?:\*/|\Z))
    |(?P<text>[xX]?{TEXT})
    |(?P<quoted>{QUOTED}|`[^`]*+(?:``[^`]*+)*`(?!`)|\[[^\]]*+\])
    |(?P<open>(?:[xX]?'|["`\[]).*+)
    |(?P<word>[^\W\d][\w$]*+)
    |{NUMBER}
    |(?P<sign><>|<=|>=|!=|==|\|\||<<|>>|->>?|::|.)""",
    # A comment may hold others, and `$tag$` ends with its own like: `_end` looks for both.
    Dialect.POSTGRESQL: rf"""(?P<space>\s++)
    |(?P<comment>--[^\n\r]*+)
    |(?P<nested>/\*)
    |(?P<text>[eE]'[^'\\]*+(?:(?:''|\\.)[^'\\]*+)*'(?!')|(?:[bBnNxX]|[uU]&)?{TEXT})
    |(?P<quoted>(?:[uU]&)?{QUOTED})
    |(?P<open>(?:(?:[eEbBnNxX]|[uU]&)?'|(?:[uU]&)?").*+)
    |(?P<word>[^\W\d][\w$]*+)
    |{NUMBER}
    |(?P<parameter>\$\d++)
    |(?P<dollar>\$(?:[^\W\d]\w*+)?\$)
    |(?P<operator>(?:(?!--|/\*)[-+*/<>=~!@\#%^&|?`])+)
    |(?P<sign>::|:=|\.\.|.)""",
}
PATTERNS = {dialect: re.compile(form, re.VERBOSE | re.DOTALL) for dialect, form in FORMS.items()}
PREFIX = re.compile(r"(?:[eEbBnNxX]|[uU]&)(?=['\"])|")
NESTED = re.compile(r"/\*|\*/")
# An operator of PostgreSQL without one of these has no plus or minus at its end.
SPECIAL = frozenset("~!@#%^&|?`")
GAPS = ("space", "comment")


class Token(NamedTuple):
    # space, comment, word, number, quoted (a name), text, sign; or open: a text, a name or a
    # comment without its end, which goes to the end of the whole
    kind: str
    text: str  # as it stands there
    begin: int  # by characters, from 0

    @property
    def end(self) -> int:
        """Behind its last character."""
        return self.begin + len(self.text)

    @property
    def word(self) -> str:
        """A word in small letters or a sign; empty of the others."""
        return self.text.lower() if self.kind in ("word", "sign") else ""

    @property
    def name(self) -> str:
        """Of one in quotes what stands in them; else its text."""
        return inner(self) if self.kind in ("quoted", "text", "open") else self.text


def pieces(text: str, dialect: Dialect = Dialect.SQLITE, at: int = 0) -> Iterator[Token]:
    """All tokens from a place on, white space and comments among them."""
    pattern = PATTERNS[dialect]
    while match := pattern.match(text, at):
        kind, end = match.lastgroup or "sign", match.end()
        if kind in ("nested", "dollar"):
            end = _end(text, match)
            kind = {"nested": "comment", "dollar": "text"}[kind] if end else "open"
            end = end or len(text)
        elif kind == "parameter":
            kind = "word"
        elif kind == "operator":
            kind = "sign"
            if SPECIAL.isdisjoint(match[0]):
                end = at + max(1, len(match[0].rstrip("+-")))
        yield Token(kind, text[at:end], at)
        yield from (Token("sign", text[tail], tail) for tail in range(end, match.end()))
        at = max(end, match.end())


def _end(text: str, begin: re.Match[str]) -> int:
    """Behind the end of a comment with others in it or of a text in dollars; 0 where it has none."""
    if begin.lastgroup == "dollar":
        found = text.find(begin[0], begin.end())
        return found + len(begin[0]) if found >= 0 else 0
    depth = 1
    for mark in NESTED.finditer(text, begin.end()):
        depth += 1 if mark[0] == "/*" else -1
        if not depth:
            return mark.end()
    return 0


def tokens(text: str, dialect: Dialect = Dialect.SQLITE) -> list[Token]:
    """Without white space and comments."""
    return [token for token in pieces(text, dialect) if token.kind not in GAPS]


def is_blank(text: str, dialect: Dialect = Dialect.SQLITE) -> bool:
    """Whether there is nothing but white space and comments."""
    return all(token.kind in GAPS for token in pieces(text, dialect))


def inner(token: Token) -> str:
    """What stands between quotes, of which two inside are one; an open one goes to its end."""
    text = token.text
    prefix = PREFIX.match(text)
    text = text[prefix.end() if prefix else 0 :]
    if text[:1] == "$":
        tag = text[: text.index("$", 1) + 1]
        return text[len(tag) :].removesuffix(tag)
    quote = {"[": "]"}.get(text[:1], text[:1])
    text = text[1:]
    if token.kind != "open":
        text = text[:-1]
    return text if quote == "]" else text.replace(quote * 2, quote)


def content(token: Token) -> str:
    """A name as it is meant, small where it is not quoted, or the content of a text."""
    return inner(token) if token.kind in ("quoted", "text") else token.text.lower()


def canonical(found: list[Token]) -> str:
    """The tokens of a text with one blank between them, words in small letters."""
    return " ".join(
        token.text.lower() if token.kind == "word" else "<>" if token.text == "!=" else token.text
        for token in found
    )


def without_comments(text: str, dialect: Dialect = Dialect.SQLITE) -> str:
    """The text with a blank for each comment."""
    return "".join(
        " " if token.kind == "comment" else token.text for token in pieces(text, dialect)
    )


def byte_at(text: str, at: int) -> int:
    """The byte, in UTF-8 and from 0, at which a character begins."""
    return len(text[:at].encode("utf-8", "surrogatepass"))


def line_and_column(text: str, at: int) -> tuple[int, int]:
    """The line and the column of a character, both from 1, the column by characters."""
    return text.count("\n", 0, at) + 1, at - text.rfind("\n", 0, at)
