"""The text of a query that was typed into a platform's editor, which keeps it as HTML.

One scan, whose time is linear: what looks like the beginning of a tag and has no end is text."""
from __future__ import annotations

import html
import re
from collections.abc import Iterator
from typing import NamedTuple

MOST_CHARACTERS = 262_144
BREAKS = frozenset(
    ("br", "p", "div", "li", "pre", "tr", "h1", "h2", "h3", "h4", "h5", "h6", "blockquote")
)
HIDDEN = frozenset(("script", "style", "head", "title"))
# Line ends count inside of these alone.
KEEPS = frozenset(("pre", "textarea"))
TAG = re.compile(r"<(/?)([A-Za-z][A-Za-z0-9]*+)")
IN_TAG = re.compile(r"""[^"'>]*+""")
# No character has so large a number, and Python reads no longer one.
LARGE = re.compile(r"&#[0-9]{8,};?")


class Part(NamedTuple):
    name: str  # of a tag, in small letters; empty of text
    text: str  # empty of a tag
    is_end: bool = False


def parts(page: str) -> Iterator[Part]:
    """The tags and the text between them, without comments and declarations."""
    at, has_ends = 0, True
    while at < len(page):
        begin = page.find("<", at) if has_ends else -1
        begin = len(page) if begin < 0 else begin
        if begin > at:
            yield Part("", page[at:begin])
        at = begin
        if at == len(page):
            return
        tag = TAG.match(page, at)
        if page.startswith("<!--", at):
            end = page.find("-->", at + 4)
            at = end + 3 if end >= 0 else len(page)
        elif tag or page.startswith(("<!", "<?"), at):
            end = tag_end(page, at + 1)
            if end < 0:
                has_ends = False
            else:
                if tag:
                    yield Part(tag[2].lower(), "", bool(tag[1]))
                at = end
        else:
            yield Part("", "<")
            at += 1


def tag_end(page: str, at: int) -> int:
    """Behind the `>` that stands in no quotes; -1 where there is none."""
    while True:
        plain = IN_TAG.match(page, at)
        at = plain.end() if plain else at
        if at >= len(page):
            return -1
        if page[at] == ">":
            return at + 1
        at = page.find(page[at], at + 1) + 1
        if not at:
            return -1


def text_of(page: str) -> str:
    """The characters of the page, with a line end at each paragraph and break, and no two empty
    lines at a time. ValueError where it has more than MOST_CHARACTERS."""
    if len(page) > MOST_CHARACTERS:
        raise ValueError("a page of more than 256 KiB")
    made: list[str] = []
    hidden = kept = 0
    for part in parts(page):
        if part.name:
            step = -1 if part.is_end else 1
            hidden = max(0, hidden + step * (part.name in HIDDEN))
            kept = max(0, kept + step * (part.name in KEEPS))
            if part.name in BREAKS and not (part.is_end and part.name == "br"):
                made.append("\n")
        elif not hidden:
            # An editor writes two blanks as a blank and a no-break space.
            plain = html.unescape(LARGE.sub("\ufffd", part.text)).replace("\u00a0", " ")
            made.append(plain if kept else plain.replace("\r", "").replace("\n", " "))
    lines: list[str] = []
    for line in "".join(made).split("\n"):
        line = line.rstrip()
        if line or (lines and lines[-1]):
            lines.append(line)
    while lines and not lines[-1]:
        lines.pop()
    return "".join(f"{line}\n" for line in lines)
