"""What is looked up in the text of a query before an engine gets it."""
from __future__ import annotations

from collections.abc import Collection

from classroom.sql.tokens import Token, tokens

# Behind these something has to come, which sqlglot doesn't ask for.
OPEN_ENDS = frozenset("group order by having where on from and or not in like union".split())


def begins_as_query(text: str) -> bool:
    """Whether the first word is SELECT, WITH, VALUES or TABLE, in parentheses or not."""
    first = next((token for token in tokens(text) if token.text != "("), None)
    return first is not None and first.text.lower() in ("select", "with", "values", "table")


def is_cut(text: str) -> bool:
    """Whether it ends, or a list in it, where something has to come: sqlglot reads over that."""
    words = [token.text.lower() for token in tokens(text)]
    return bool(words and words[-1] in OPEN_ENDS | {","}) or any(
        one == "," and two in ("from", "where", ")", ",") for one, two in zip(words, words[1:])
    )


def unknown_name(text: str, names: Collection[str]) -> tuple[str, int] | None:
    """A name in double quotes that neither the schema has nor the query gives, and its place.

    SQLite takes such a one for a text.
    """
    found = tokens(text)
    known = {name.lower() for name in names} | {"rowid", "_rowid_", "oid"}
    for at, token in enumerate(found):
        if at and token.kind in ("quoted", "word") and names_something(found, at):
            known.add(token.name.lower())
    known.update(name.lower() for name in columns_of_with(found))
    for at, token in enumerate(found):
        if token.kind == "quoted" and token.text[0] == '"' and token.name.lower() not in known:
            return token.name, token.begin
    return None


def names_something(found: list[Token], at: int) -> bool:
    """Whether the token at a place gives a name: behind AS, before AS (of WITH) or behind a column
    or a table."""
    before = found[at - 1]
    after = found[at + 1] if at + 1 < len(found) else Token("sign", "", 0)
    if before.kind == "word" and before.text.lower() == "as":
        return True
    if (
        after.kind == "word"
        and after.text.lower() == "as"
        and (before.text == "," or before.text.lower() in ("with", "recursive"))
    ):
        return True
    if before.text == ")" or before.kind in ("quoted", "number"):
        return True
    return before.kind == "word" and before.text.lower() not in WORDS


def columns_of_with(found: list[Token]) -> list[str]:
    """The names in the lists of columns of WITH, which stand before AS and a parenthesis."""
    names: list[str] = []
    for at in range(len(found) - 2):
        if (
            found[at].text == ")"
            and found[at + 1].text.lower() == "as"
            and any(token.text == "(" for token in found[at + 2 : at + 5])
        ):
            begin = next((back for back in range(at, -1, -1) if found[back].text == "("), at)
            inner = found[begin + 1 : at]
            if all(token.kind in ("word", "quoted") or token.text == "," for token in inner):
                names += [
                    token.name for token in (*found[begin - 1 : begin], *inner) if token.text != ","
                ]
    return names


# Behind these a name is one that is used and not one that is given.
WORDS = frozenset(
    "all and any as asc between by case cast check collate cross desc distinct else end escape"
    " except exists filter from full glob group having in inner intersect is isnull join left like"
    " limit match natural not notnull null offset on or order outer over partition recursive regexp"
    " right select some then union unique using values when where window with".split()
)
