"""A change of a query at one place."""
from __future__ import annotations

import enum
from dataclasses import dataclass

from classroom.sql.spans import Span


class Kind(enum.Enum):
    """What is changed, as far as a student may be told; a sentence of `classroom.hints.steps` goes
    with each."""

    COMPARISON = "comparison"
    CONSTANT = "constant"
    COLUMN = "column"
    NULL = "NULL"
    CONNECTIVE = "AND and OR"
    NEGATION = "NOT"
    QUANTIFIER = "existence"
    JOIN_CONDITION_MISSING = "join condition missing"
    CONDITION_MISSING = "condition missing"
    CONDITION_TOO_MANY = "condition too many"
    CONDITION = "condition"
    WHERE = "whole WHERE"
    JOIN = "join"
    TABLE = "table"
    TABLE_MISSING = "table missing"
    TABLE_TOO_MANY = "table too many"
    SET = "set operator"
    OPERAND_MISSING = "operand missing"
    OPERAND_TOO_MANY = "operand too many"
    SELECT = "SELECT"
    EMPTY = "always empty"
    DISTINCT = "DISTINCT"
    AGGREGATE = "aggregate"
    GROUP = "GROUP BY"
    HAVING = "HAVING"
    ORDER = "ORDER BY"


@dataclass(frozen=True)
class Change:
    """What stands between two places of a text gets another one."""

    mistake: str  # as `< for <=`
    kind: Kind
    cost: int  # the least is the likeliest mistake
    instead: Span  # of the text that goes
    text: str  # that comes
    place: Span  # what is shown of the text

    def on(self, text: str) -> str:
        """The text with this change."""
        return text[: self.instead.begin] + self.text + text[self.instead.end :]
