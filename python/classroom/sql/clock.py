"""What in a query asks the clock, so that what it returns is another thing on another day.

SQLite reads the clock in its functions of dates, where they get the text 'now', and PostgreSQL
wherever 'now', 'today' and the like become a date. Elsewhere such a text is a text."""
from __future__ import annotations

import re
from collections.abc import Iterator, Sequence
from typing import NamedTuple

from classroom.sql.tokens import Dialect, Token, tokens

# SQLite's functions of dates, with how many arguments stand before the moment.
MOMENTS = {"date": 0, "time": 0, "datetime": 0, "julianday": 0, "unixepoch": 0, "strftime": 1}
COMPARING = frozenset("= == <> != < > <= >= is not like glob between and when match regexp".split())
# PostgreSQL's words and functions that have the time of the query or of the server. Those that are
# volatile, as clock_timestamp and random, nobody may call who asks.
WORDS = frozenset("current_date current_time current_timestamp localtime localtimestamp".split())
FUNCTIONS = frozenset(
    "now statement_timestamp transaction_timestamp pg_postmaster_start_time"
    " pg_conf_load_time".split()
)
TYPES = frozenset("date time timetz timestamp timestamptz".split())
SPECIAL = re.compile(r"\b(?:now|today|tomorrow|yesterday)\b", re.IGNORECASE)
LETTER = re.compile("[A-Za-z]")
# Behind these a parenthesis is no function's.
OPENING = frozenset(
    "all and any as between by case distinct else from having in is like not on or select then"
    " using values when where".split()
)
# Words in an expression that are no columns.
INNER = frozenset("as text varchar integer int null and or not case when then else end is".split())


class Call(NamedTuple):
    """A name with parentheses behind it."""

    name: str  # in small letters
    arguments: tuple[tuple[Token, ...], ...]


def calls(found: Sequence[Token]) -> Iterator[Call]:
    for at, (one, two) in enumerate(zip(found, found[1:])):
        if one.kind in ("word", "quoted") and two.text == "(":
            yield Call(one.name.lower(), arguments(found, at + 1))


def arguments(found: Sequence[Token], at: int) -> tuple[tuple[Token, ...], ...]:
    """What stands between the parentheses that begin at a token, parted by commas."""
    made: list[list[Token]] = [[]]
    depth = 0
    for token in found[at:]:
        depth += (token.text == "(") - (token.text == ")")
        if depth == 0:
            break
        if token.text == "," and depth == 1:
            made.append([])
        elif depth > 1 or token.text != "(" or made[-1]:
            made[-1].append(token)
    return tuple(tuple(one) for one in made if one)


def asked_in_sqlite(text: str) -> str:
    """What asks for the time; "" where nothing does. CURRENT_DATE is barred by its name."""
    found = tokens(text)
    is_open = False  # whether a moment is what a column has
    for call in calls(found):
        if call.name not in MOMENTS:
            continue
        if len(call.arguments) <= MOMENTS[call.name]:
            return f"{call.name}()"
        moment = call.arguments[MOMENTS[call.name]]
        for token in moment:
            if token.kind == "text" and (is_now(token) or token.text[0] in "xX"):
                return token.text
        if is_made(moment):
            return f"{call.name}(..)"
        is_open |= has_column(moment)
    if is_open:
        for at, token in enumerate(found):
            if token.kind == "text" and is_now(token) and not is_compared(found, at):
                return token.text
    return ""


def is_now(token: Token) -> bool:
    return token.name.strip().lower() == "now"


def is_compared(found: Sequence[Token], at: int) -> bool:
    """Whether a text is held against another, by itself or in the list of an IN."""
    after = found[at + 1].text if at + 1 < len(found) else ""
    if after in COMPARING:
        return True
    while at and (found[at - 1].kind in ("text", "number") or found[at - 1].text == ","):
        at -= 1
    before = [token.word for token in found[max(0, at - 2) : at]]
    return before == ["in", "("] or bool(before) and before[-1] in COMPARING


def has_column(of: Sequence[Token]) -> bool:
    """Whether an expression reads a column."""
    return any(
        token.kind in ("word", "quoted")
        and token.name.lower() not in INNER
        and [one.text for one in of[at + 1 : at + 2]] != ["("]
        for at, token in enumerate(of)
    )


def is_made(of: Sequence[Token]) -> bool:
    """Whether a text is computed of none but constants, and may be any."""
    if has_column(of):
        return False
    is_spelled = any(token.kind == "text" and LETTER.search(token.text) for token in of)
    return (is_spelled and any(token.text == "||" for token in of)) or any(
        call.name not in MOMENTS and call.name != "cast" for call in calls(of)
    )


def asked_in_postgresql(text: str) -> str:
    """What asks for the time, but for texts that become a date where they stand: see
    `with_parameters`."""
    found = tokens(text, Dialect.POSTGRESQL)
    for at, token in enumerate(found):
        before = found[at - 1] if at else None
        if token.kind == "word" and token.text.lower() in WORDS:
            return token.text
        if (
            token.kind == "text"
            and may_be_special(token)
            and before is not None
            and (before.word in TYPES or before.word == "zone")
        ):
            return token.text
    for call in calls(found):
        if call.name in FUNCTIONS or call.name == "age" and len(call.arguments) == 1:
            return f"{call.name}()"
    for of in cast_to_dates(found):
        if len(of) > 1 and (is_made(of) or any(map(may_be_special, of))):
            return "a date of a computed text"
    return ""


def cast_to_dates(found: Sequence[Token]) -> Iterator[Sequence[Token]]:
    """The expressions that are cast to a type of dates or times."""
    for at, token in enumerate(found):
        is_type = token.word in TYPES
        if is_type and at > 1 and found[at - 1].text == "::":
            yield found[begin_of(found, at - 2) : at - 1]
        elif is_type and at and found[at - 1].word == "as":
            opened = begin_of(found, at, is_inside=True)
            if opened and found[opened - 1].word == "cast":
                yield found[opened + 1 : at - 1]
        elif is_type and at + 1 < len(found) and found[at + 1].text == "(":
            yield from arguments(found, at + 1)[:1]


def begin_of(found: Sequence[Token], at: int, is_inside: bool = False) -> int:
    """The first token of the operand that ends at a token, or the parenthesis around it."""
    depth = 1 if is_inside else 0
    while at > 0:
        depth += (found[at].text == ")") - (found[at].text == "(")
        if depth == 0:
            break
        at -= 1
    before = found[at - 1] if at and not is_inside else None
    if before and before.text == "::":
        return begin_of(found, at - 2)
    is_call = found[at].text == "(" and before and before.word not in OPENING
    return at - 1 if is_call and before and before.kind == "word" else at


def may_be_special(token: Token) -> bool:
    """Whether a text names a moment of the clock, or can't be read because of its escapes."""
    if token.kind != "text":
        return False
    return bool(SPECIAL.search(token.name)) or token.text[0] in "eEuU" and "\\" in token.text


def with_parameters(text: str) -> tuple[str, tuple[str, ...]]:
    """PostgreSQL's text with parameters in place of the texts that may be moments of the clock, and
    these texts: what they are the server tells by the parameters' types."""
    taken = [token for token in tokens(text, Dialect.POSTGRESQL) if may_be_special(token)]
    for number, token in reversed(list(enumerate(taken, 1))):
        text = f"{text[: token.begin]} ${number} {text[token.end :]}"
    return text, tuple(token.text for token in taken)
