"""A `schema.sql` as SQLite reads it, and its functional dependencies, which SQLite has none of."""
from __future__ import annotations

from dataclasses import dataclass

from classroom.sql.tokens import Token, content, tokens


@dataclass(frozen=True)
class Dependency:
    """Rows of a table that agree on some columns, none of them NULL, are the same on others."""

    table: str
    of: tuple[str, ...]
    to: tuple[str, ...]


def for_sqlite(schema: str) -> tuple[str, list[Dependency]]:
    """The text without its dependencies, and these."""
    text = schema.removeprefix("\ufeff")
    found = tokens(text)
    kept, dependencies = [], []
    table, begin, at = "", 0, 0
    while at < len(found):
        if found[at].word == "table" and at + 1 < len(found):
            name = at + 1 + 3 * (found[at + 1].word == "if")
            table = content(found[name])
        if (
            found[at].word == "dependency"
            and at
            and found[at - 1].word in ("(", ",")
            and found[at + 1].word == "("
        ):
            of, behind = names(found, at + 1)
            to, behind = names(found, behind + 1)
            dependencies.append(Dependency(table, of, to))
            # With the comma before it, or else the one behind.
            is_first = found[at - 1].word == "("
            last = behind if not is_first or found[behind].word != "," else behind + 1
            first = found[at].begin if is_first else found[at - 1].begin
            kept.append(text[begin:first])
            begin, at = found[last - 1].end, last
        else:
            at += 1
    return "".join([*kept, text[begin:]]), dependencies


def names(found: list[Token], at: int) -> tuple[tuple[str, ...], int]:
    """The names in parentheses at a place, and the place behind them."""
    end = next(place for place in range(at, len(found)) if found[place].word == ")")
    return (
        tuple(content(token) for token in found[at + 1 : end] if token.kind in ("word", "quoted")),
        end + 1,
    )
