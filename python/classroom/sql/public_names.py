"""Names behind `public.`, PostgreSQL's schema where tables are made if nothing is said."""
from __future__ import annotations

from collections.abc import Collection, Sequence

from classroom.sql.tokens import Dialect, Token, tokens

PUBLIC = "public"


def without_public(text: str, names: Collection[str]) -> str:
    """A text of PostgreSQL with blanks for `public.` before these names, so that each other
    character stays at its place. A name that the query itself gives, by WITH or with columns, or
    `public` where it is given, is left as it is."""
    found = tokens(text, Dialect.POSTGRESQL)
    if any(is_public(token) and not is_dotted(found, at) for at, token in enumerate(found)):
        return text
    made, end = [], 0
    for at, token in enumerate(found[:-2]):
        dot, named = found[at + 1], found[at + 2]
        if (
            is_public(token)
            and meant(named) in names
            and not any(gives(found, place, meant(named)) for place in range(len(found)))
        ):
            made += [
                text[end : token.begin],
                " " * len(token.text),
                text[token.end : dot.begin],
                " ",
            ]
            end = dot.end
    return "".join([*made, text[end:]])


def meant(token: Token) -> str:
    """A name as PostgreSQL takes it: small where it has no quotes."""
    return token.name if token.kind == "quoted" else token.text.lower()


def is_public(token: Token) -> bool:
    return token.kind in ("word", "quoted") and meant(token) == PUBLIC


def is_dotted(found: Sequence[Token], at: int) -> bool:
    """Whether a name stands before a dot and behind none."""
    after = found[at + 1].text if at + 1 < len(found) else ""
    return after == "." and (at == 0 or found[at - 1].text != ".")


def gives(found: Sequence[Token], at: int, name: str) -> bool:
    """Whether WITH gives a name here, or an alias with columns."""
    if meant(found[at]) != name or found[at].kind not in ("word", "quoted"):
        return False
    after = [token.word for token in found[at + 1 : at + 3]]
    return after[:1] == ["("] or after in (["as", "("], ["as", "materialized"], ["as", "not"])
