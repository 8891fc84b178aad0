"""What tools put around a query: commands of a shell, prompts, fences, batches, transactions.

Each is made blank, so that the query keeps its places, and named with its line. In a text, a name
in quotes or a comment nothing is one."""
from __future__ import annotations

import re

from classroom.sql.tokens import GAPS, Dialect, pieces

# At the beginning of a line; those of `OUTSIDE` where no statement has begun.
FENCE = re.compile(r"(?:```|~~~)[ \t]*\w*[ \t\r]*(?=\n|\Z)")
SHELL = re.compile(r"\\[A-Za-z!?][^\n]*+")
BATCH = re.compile(r"go(?:[ \t]++\d++)?[ \t]*;?[ \t\r]*(?=\n|\Z)", re.IGNORECASE)
# A slash on a line of its own runs what stands above; inside of a statement it divides.
SLASH = re.compile(r"/[ \t\r]*(?=\n\s*\Z|\Z)")
DOT = re.compile(r"\.[A-Za-z][^\n]*+")
PROMPT = re.compile(r"(?:sqlite>|mysql>|SQL>|[A-Za-z_]\w*+=[#>])[ \t]?")
# In the lines behind one with a prompt.
NEXT_PROMPT = re.compile(r"(?:\.\.\.>|->|[A-Za-z_]\w*+[-*^'\"($][#>])[ \t]?")
# Where a statement could begin: up to its end or the line's.
SETTING = re.compile(
    r"(?:use|set|begin|commit|end|rollback|start[ \t]++transaction)\b[^;\n]*+;?", re.IGNORECASE
)
EXPLAIN = re.compile(
    r"explain\b(?:\s++(?:query\s++plan|analyze|verbose)\b"
    r"|\s*+\(\s*+(?:analyze|verbose|costs|settings|buffers|wal|timing|summary|format)\b[^()]*+\))*",
    re.IGNORECASE,
)
# What is shown of a line that is left out; a sign of another kind might be read as markup.
PLAIN = re.compile(r"[A-Za-z0-9 .;\\=>#/-]{1,40}")


def unwrapped(text: str, dialect: Dialect) -> tuple[str, list[str]]:
    """The text with blanks for what was found, as many as it has bytes, and a remark for each. What
    ends a statement is a semicolon."""
    found = wrappers(text, dialect)
    made, told, end, line = [], [], 0, 1
    for begin, behind, ends in found:
        line += text.count("\n", end, begin)
        dropped = text[begin:behind]
        shown = dropped.strip()
        told.append(
            f"without {shown} in line {line}"
            if PLAIN.fullmatch(shown)
            else f"without what begins line {line}"
        )
        made += [text[end:begin], (";" if ends else "") + blank(dropped[ends:])]
        line += dropped.count("\n")
        end = behind
    return "".join([*made, text[end:]]), told


def blank(text: str) -> str:
    return "".join(sign if sign in "\r\n" else " " * len(sign.encode()) for sign in text)


def wrappers(text: str, dialect: Dialect) -> list[tuple[int, int, bool]]:
    """Where each begins and ends, by characters, in their order, and whether it ends a statement."""
    found: list[tuple[int, int, bool]] = []
    at, is_inside, has_prompt = 0, False, False
    is_start = True  # of a line, but for blanks
    read = pieces(text, dialect)
    while at < len(text):
        # Before the token is read, since one of backquotes may go to the end of the text.
        match = one_at(text, at, is_start, is_inside, has_prompt)
        if match:
            ends = is_inside and match.re in (BATCH, SLASH)
            found.append((*match.span(), ends))
            has_prompt |= match.re is PROMPT
            is_inside &= not ends
            is_start = match.re in (PROMPT, NEXT_PROMPT)
            at = match.end()
            read = pieces(text, dialect, at)
            continue
        token = next(read)
        at = token.end
        if token.kind in GAPS:
            is_start = token.kind == "space" and (is_start or "\n" in token.text)
        else:
            is_inside, is_start = token.text != ";", False
    return found


def one_at(
    text: str, at: int, is_start: bool, is_inside: bool, has_prompt: bool
) -> re.Match[str] | None:
    """What stands at a token's beginning."""
    forms = []
    if is_start:
        forms += [FENCE, SHELL, BATCH, SLASH, *([NEXT_PROMPT] if has_prompt else [])]
    if is_start and not is_inside:
        forms += [DOT, PROMPT]
    if not is_inside:
        forms += [SETTING, EXPLAIN]
    return next((match for form in forms if (match := form.match(text, at))), None)
