"""The keys and foreign keys of a `schema.sql`, by which parts of its rows are lawful."""
from __future__ import annotations

from dataclasses import dataclass, field

from classroom.sql.schema import Token, items_of


@dataclass
class Rules:
    """Of one table; columns by their names."""

    keys: list[list[str]] = field(default_factory=list)
    foreigns: list[tuple[list[str], str, list[str]]] = field(
        default_factory=list
    )  # columns, table, its columns
    primary: list[str] = field(default_factory=list)


def rules_of(text: str) -> list[Rules]:
    """The rules of each table, in the schema's order. The text is one that `ratest` reads."""
    found: dict[str, Rules] = {}
    for name, items in items_of(text):
        found[name] = rules = Rules()
        for item in items:
            add(rules, item)
    for rules in found.values():
        for _, table, to in rules.foreigns:
            to[:] = to or found[table].primary
    return list(found.values())


def add(rules: Rules, item: list[Token]) -> None:
    """Adds what one item says: a rule of the table, or a column with rules of its own."""
    is_rule = item[0].kind == "word"
    if is_rule and item[0].text == "constraint":
        item = item[2:]
    if is_rule and item[0].text in ("primary", "unique"):
        key(rules, names(item), item[0].text == "primary")
    elif is_rule and item[0].text == "foreign":
        foreign(rules, names(item), item)
    elif not (is_rule and item[0].text in ("check", "dependency")):
        words = [token.text if token.kind == "word" else "" for token in item]
        for word in ("primary", "unique"):
            if word in words[1:]:
                key(rules, [item[0].text], word == "primary")
        if "references" in words[1:]:
            foreign(rules, [item[0].text], item)


def key(rules: Rules, columns: list[str], is_primary: bool) -> None:
    rules.keys.append(columns)
    if is_primary:
        rules.primary = columns


def foreign(rules: Rules, columns: list[str], item: list[Token]) -> None:
    at = item.index(Token("word", "references"))
    has_columns = at + 2 < len(item) and item[at + 2] == Token("other", "(")
    rules.foreigns.append(
        (columns, item[at + 1].text, names(item[at + 2 :]) if has_columns else [])
    )


def names(item: list[Token]) -> list[str]:
    """The names in the first parentheses."""
    start = item.index(Token("other", "("))
    stop = item.index(Token("other", ")"))
    return [token.text for token in item[start + 1 : stop] if token.kind in ("word", "quoted")]
