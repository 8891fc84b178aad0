"""What asking about a query over some rows came to, whoever was asked."""
from __future__ import annotations

from collections.abc import Collection, Sequence
from enum import Enum
from typing import NamedTuple, Protocol

from classroom.mutants.question import Question
from classroom.exercise.rows import Pool, Row

Rows = frozenset[Row]


class Kind(Enum):
    SHOWN = "the answers differ on some of the rows"
    SAME = "no difference"
    REFUSED = "it is not read"
    PASSED = "it passes a limit"


class Finding(NamedTuple):
    """An outcome, with the rows of the witness where there is one."""

    kind: Kind
    rows: Rows = frozenset()

    @property
    def is_shown(self) -> bool:
        return self.kind == Kind.SHOWN


class Asker(Protocol):
    """Who is asked about queries over parts of a pool."""

    @property
    def pool(self) -> Pool:
        ...

    def over(self, rows: Collection[Row], asked: Sequence[Question]) -> dict[Question, Finding]:
        """What each comes to over some rows."""
