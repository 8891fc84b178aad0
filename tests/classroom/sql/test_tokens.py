"""The one tokenizer, by odd texts whose tokens were written by hand from the manuals of the three
readers, and by random ones."""
from __future__ import annotations

import ast
import re
import time
from pathlib import Path

import pytest

from classroom.sql.tokens import (
    Dialect,
    byte_at,
    canonical,
    content,
    is_blank,
    line_and_column,
    pieces,
    tokens,
    without_comments,
)

hypothesis = pytest.importorskip(
    "hypothesis", reason="no hypothesis: apt-get install python3-hypothesis"
)
from hypothesis import strategies  # noqa: E402

RATEST, SQLITE, POSTGRESQL = Dialect.RATEST, Dialect.SQLITE, Dialect.POSTGRESQL
PACKAGE = Path(__file__).resolve().parents[3] / "python/classroom"

# A text, and its tokens with their kinds; s is white space, c a comment, w a word, n a number,
# q a name in quotes, t a text, g a sign, o what is open.
KINDS = {
    "s": "space",
    "c": "comment",
    "w": "word",
    "n": "number",
    "q": "quoted",
    "t": "text",
    "g": "sign",
    "o": "open",
}
ODD = [
    # Comments: PostgreSQL's hold others; without an end they are comments in SQLite alone.
    (RATEST, "a/*x/*y*/z*/", "w:a c:/*x/*y*/ w:z g:* g:/"),
    (SQLITE, "a/*x/*y*/z*/", "w:a c:/*x/*y*/ w:z g:* g:/"),
    (POSTGRESQL, "a/*x/*y*/z*/b", "w:a c:/*x/*y*/z*/ w:b"),
    (RATEST, "a/*b", "w:a o:/*b"),
    (SQLITE, "a/*b", "w:a c:/*b"),
    (POSTGRESQL, "a/*b/*c*/", "w:a o:/*b/*c*/"),
    (RATEST, "/*/a*/b", "c:/*/a*/ w:b"),
    (SQLITE, "--a/*\nb", "c:--a/* s:\n w:b"),
    (POSTGRESQL, "/*--*/a", "c:/*--*/ w:a"),
    (SQLITE, "--a\rb", "c:--a\rb"),
    (POSTGRESQL, "--a\rb", "c:--a s:\r w:b"),
    (POSTGRESQL, "1---2", "n:1 c:---2"),
    # Texts.
    (RATEST, "'it''s'x", "t:'it''s' w:x"),
    (SQLITE, "''''", "t:''''"),
    (SQLITE, "'''", "o:'''"),
    (SQLITE, "E'a\\'b'c'", "w:E t:'a\\' w:b t:'c'"),
    (POSTGRESQL, "E'a\\'b'c", "t:E'a\\'b' w:c"),
    (POSTGRESQL, "e'a''b\\\\'", "t:e'a''b\\\\'"),
    (POSTGRESQL, "'a\\'b", "t:'a\\' w:b"),
    (POSTGRESQL, "E'a\\'", "o:E'a\\'"),
    (POSTGRESQL, "xE'a'", "w:xE t:'a'"),
    (SQLITE, "x'00'X''", "t:x'00' t:X''"),
    (POSTGRESQL, "U&'d\\0061'", "t:U&'d\\0061'"),
    (POSTGRESQL, "n'a'B'1'", "t:n'a' t:B'1'"),
    (POSTGRESQL, "$$'$$;", "t:$$'$$ g:;"),
    (POSTGRESQL, "$a$ $$ $b$ $a$", "t:$a$ $$ $b$ $a$"),
    (POSTGRESQL, "$a$ $A$", "o:$a$ $A$"),
    (POSTGRESQL, "$1+a$b$c", "w:$1 g:+ w:a$b$c"),
    (SQLITE, "a$$b", "w:a$$b"),
    (SQLITE, "$$b", "g:$ g:$ w:b"),
    # Names.
    (RATEST, '"a""b"""', 'q:"a""b"""'),
    (RATEST, '"a;--', 'o:"a;--'),
    (RATEST, "`a`", "g:` w:a g:`"),
    (SQLITE, "`a``b`[c d]", "q:`a``b` q:[c d]"),
    (SQLITE, "[a[b]c", "q:[a[b] w:c"),
    (SQLITE, "[a", "o:[a"),
    (SQLITE, "`a", "o:`a"),
    (POSTGRESQL, "a[1]", "w:a g:[ n:1 g:]"),
    (POSTGRESQL, 'U&"d\\0061"', 'q:U&"d\\0061"'),
    (POSTGRESQL, 'b"x"', 'w:b q:"x"'),
    (SQLITE, "größe_1 名", "w:größe_1 s:  w:名"),
    (RATEST, "é", "g:é"),
    # Numbers.
    (RATEST, "1.5e-3", "n:1.5e-3"),
    (SQLITE, "1.e5.5 1e", "n:1.e5 n:.5 s:  n:1 w:e"),
    (SQLITE, "0xFf", "n:0xFf"),
    (POSTGRESQL, "1..2", "n:1 g:.. n:2"),
    (SQLITE, "t1.5", "w:t1 n:.5"),
    # Signs.
    (RATEST, "a<>b<=c!=d||e", "w:a g:<> w:b g:<= w:c g:!= w:d g:|| w:e"),
    (SQLITE, "a==b->>c::d", "w:a g:== w:b g:->> w:c g::: w:d"),
    (POSTGRESQL, "a=-1*+-2", "w:a g:= g:- n:1 g:* g:+ g:- n:2"),
    (POSTGRESQL, "a~-b!~~*c@-d", "w:a g:~- w:b g:!~~* w:c g:@- w:d"),
    (POSTGRESQL, "a+/*x*/b*--c", "w:a g:+ c:/*x*/ w:b g:* c:--c"),
    # White space.
    (SQLITE, "\ufeffa\u00a0b", "s:\ufeff w:a s:\u00a0 w:b"),
    (RATEST, "a\u00a0b", "w:a g:\u00a0 w:b"),
    (RATEST, "", ""),
]


@pytest.mark.parametrize("dialect, text, wanted", ODD)
def test_odd_texts(dialect: Dialect, text: str, wanted: str) -> None:
    read = list(pieces(text, dialect))
    shown = " ".join(
        f"{next(short for short, kind in KINDS.items() if kind == one.kind)}:{one.text}"
        for one in read
    )
    assert shown == wanted
    assert [one.begin for one in read] == [
        sum(len(one.text) for one in read[:at]) for at in range(len(read))
    ]


# Texts of pieces that begin, end and nest what there is, and of any characters.
PIECES = strategies.lists(
    strategies.sampled_from(
        "' '' \" \"\" ` [ ] -- /* */ \n \r \\ $ $$ $a$ E' e U& U&\" x' 1 .5 e5 0x a é + - ~ = ( ) ;"
        " \u00a0 \ufeff \0 \ud800".split(" ")
    ),
    max_size=30,
).map("".join)


@hypothesis.settings(max_examples=1000, deadline=None, database=None)  # type: ignore[misc]
@hypothesis.given(PIECES | strategies.text(max_size=40), strategies.sampled_from(Dialect))  # type: ignore[misc]
def test_joined_tokens_are_the_text(text: str, dialect: Dialect) -> None:
    read = list(pieces(text, dialect))
    assert "".join(one.text for one in read) == text
    assert all(one.text for one in read)
    assert all(text[one.begin : one.end] == one.text for one in read)
    # What is open stands at the end.
    assert all(one.kind != "open" for one in read[:-1])


# Read from its start, each beginning of one of these may be taken for the beginning of a token.
LONG = (
    *"' \" ` [ ; - + ~ /* -- --\n /*/ $ $$ $a $a$ E' E'\\ x' U&' 1 1. 1e a a; \\".split(" "),
    "\n",
    " ",
    "''",
    "a'b",
    "/**/",
    "*/",
    "(-",
)


@pytest.mark.parametrize("dialect", Dialect)
@pytest.mark.parametrize("piece", LONG)
def test_time_is_linear(piece: str, dialect: Dialect) -> None:
    """With wide bounds: four times the length may take eight times the time and half a second."""

    def taken(length: int) -> float:
        text = piece * (length // len(piece))
        begin = time.process_time()
        for _ in pieces(text, dialect):
            pass
        return time.process_time() - begin

    short = taken(16_384)
    long = taken(65_536)
    assert long < 5 and long < 8 * short + 0.5


def test_names_and_texts_are_meant() -> None:
    found = tokens("SELECT \"q\"\"\", [a b], `c``d`, 'it''s', X'0a', aB", SQLITE)
    assert [content(one) for one in found if one.word != ","] == [
        "select",
        'q"',
        "a b",
        "c`d",
        "it's",
        "0a",
        "ab",
    ]
    found = tokens("$x$a$$b$x$ U&\"n\" E'a''b' \"N\" Ab", POSTGRESQL)
    assert [content(one) for one in found] == ["a$$b", "n", "a'b", "N", "ab"]
    assert [one.name for one in tokens("'a''", SQLITE)] == ["a'"]
    assert canonical(tokens("A /* x */ != 'B'")) == "a <> 'B'"


def test_comments_are_left_out() -> None:
    assert without_comments("a--b\n/*c*/'--d'", SQLITE) == "a \n '--d'"
    assert without_comments("a/*/**/b*/c", POSTGRESQL) == "a c"
    assert is_blank(" -- task 1\n------\n/* a */", SQLITE)
    assert not is_blank("-- a\nb", SQLITE)
    assert not is_blank("/*/**/ a", RATEST)


def test_places() -> None:
    text = "é\n– a\n"
    assert [byte_at(text, at) for at in range(len(text) + 1)] == [0, 2, 3, 6, 7, 8, 9]
    assert [line_and_column(text, at) for at in (0, 1, 2, 4, 6)] == [
        (1, 1),
        (1, 2),
        (2, 1),
        (2, 3),
        (3, 1),
    ]


@pytest.mark.parametrize(
    "path", sorted(PACKAGE.rglob("*.py")), ids=lambda path: str(path.relative_to(PACKAGE))
)
def test_comments_are_known_in_one_place(path: Path) -> None:
    """No other module has a pattern with a comment of SQL in it."""
    # In place.py it is the comment `-- task T` that begins an answer.
    if path in (PACKAGE / "sql/tokens.py", PACKAGE / "platforms/place.py"):
        return
    for node in ast.walk(ast.parse(path.read_text(encoding="utf-8"))):
        if isinstance(node, ast.Constant) and isinstance(node.value, str):
            assert not re.search(r"--\[|--\.|/\\\*", node.value), f"{path}:{node.lineno}"
