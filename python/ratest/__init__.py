"""RATest: the fewest rows on which two SQL queries answer differently.

    import ratest answer = ratest.explain("CREATE TABLE t (a INTEGER)", {"t": [[1], [2]]}, "SELECT a
    FROM t", "SELECT a FROM t WHERE a > 1") print(answer)

It calls the shared object `libratest.so`, whose answers are those of the programs `ratest` and
`ratest_plus`. Calls may be made from several threads at once. """
from __future__ import annotations

from ratest.answers import (
    Agree,
    Answer,
    Certificate,
    Grade,
    KeptRows,
    Never,
    Reason,
    Refused,
    Rejected,
    Undecided,
    Valid,
    Witness,
)
from ratest.calls import check, explain, grade, prove, why
from ratest.child import Limits, Stopped
from ratest.library import NoLibrary, Said, ask

__all__ = [
    "Agree",
    "Answer",
    "Certificate",
    "Grade",
    "KeptRows",
    "Limits",
    "Never",
    "NoLibrary",
    "Reason",
    "Refused",
    "Rejected",
    "Said",
    "Stopped",
    "Undecided",
    "Valid",
    "Witness",
    "ask",
    "check",
    "explain",
    "grade",
    "prove",
    "why",
]
