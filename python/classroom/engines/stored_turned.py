"""A table's statement as the engine has it: with a rowid, and so that its rows are stored the other
way round."""
from __future__ import annotations

import re

from classroom.sql.tokens import GAPS, pieces


def words(statement: str) -> list[tuple[str, str]]:
    return [
        ("gap" if token.kind in GAPS else token.kind, token.text) for token in pieces(statement)
    ]


def with_rowid(statement: str) -> str:
    """The statement without WITHOUT ROWID, since rows are known by their rowid."""
    return re.sub(r"(?is)\bWITHOUT\s+ROWID\b\s*,?(?=[^)]*\Z)", "", statement).rstrip(" \t\r\n,")


def turned(statement: str) -> str:
    """The statement of a table that stores its rows the other way round: no column is the rowid
    (INT for INTEGER), keys of several columns and primary keys go down, and a UNIQUE at a column is
    left out; the rows meet it."""
    found = words(with_rowid(statement))
    made: list[str] = []
    solid = [at for at, (kind, _) in enumerate(found) if kind != "gap"]
    after = {at: [found[later][1].upper() for later in solid if later > at][:2] for at in solid}
    before = ""
    depth, key_depth, in_key = 0, -1, False
    for at, (kind, text) in enumerate(found):
        word = text.upper() if kind == "word" else text
        if kind == "gap":
            made.append(text)
            continue
        if kind == "word" and word == "INTEGER":
            text = "INT"
        elif kind == "word" and word == "AUTOINCREMENT":
            text = ""
        elif kind == "word" and word in ("ASC", "DESC") and (in_key or before == "KEY"):
            text = ""
        elif kind == "word" and word == "UNIQUE":
            if after[at][:1] == ["("]:
                in_key, key_depth = True, depth
            else:
                text = unnamed(made)
        elif kind == "word" and word == "KEY" and before == "PRIMARY":
            if after[at][:1] == ["("]:
                in_key, key_depth = True, depth
            else:
                text += " DESC"
        elif text == "(":
            depth += 1
        elif text in (",", ")") and in_key and depth == key_depth + 1:
            text = f" DESC{text}"
        if text.endswith(")"):
            depth -= 1
            in_key = in_key and depth > key_depth
        made.append(text)
        before = word
    return without_conflict("".join(made))


def unnamed(made: list[str]) -> str:
    """Takes away CONSTRAINT NAME before a rule that is left out."""
    solid = [
        at for at, text in enumerate(made) if text.strip() and not text.startswith(("--", "/*"))
    ]
    if len(solid) > 1 and made[solid[-2]].upper() == "CONSTRAINT":
        made[solid[-2]] = made[solid[-1]] = ""
    return ""


def without_conflict(statement: str) -> str:
    return re.sub(r"(?i)\bON\s+CONFLICT\s+(ROLLBACK|ABORT|FAIL|IGNORE|REPLACE)\b", "", statement)
