"""What `classroom` tries with SQLite against what is proved: never another verdict, and no smaller
witness."""
from __future__ import annotations

import importlib.util
import sys
from dataclasses import dataclass
from typing import Optional

from .draw import Limits
from .model import Case
from .program import TOP, Passed, folder_of, ratest
from .query import Writer

sys.path.insert(1, str(TOP / "python"))

from classroom.exercise.rows import repeated  # noqa: E402
from classroom.exercise.sources import of_exercise  # noqa: E402
from classroom.engines import child  # noqa: E402
from classroom.exercise import typed_rows as material  # noqa: E402
from classroom.verdict.verdict import ALL, JOINS, Differs, NoDifference  # noqa: E402


def lack() -> Optional[str]:
    """What to tell where a library is not there."""
    return (
        None
        if importlib.util.find_spec("sqlglot")
        else "sqlglot is missing: apt-get install python3-sqlglot"
    )


@dataclass(frozen=True)
class ByTried:
    name: str = "compare_tried"
    limits: Limits = Limits()

    def difference(self, case: Case) -> Optional[str]:
        writer = Writer("sqlite")
        with folder_of(case) as folder:
            proved = ratest(folder)
            if proved.status not in (0, 1):
                raise Passed("without a proved verdict")
            pool = of_exercise(folder)
        if any(
            list(repeated(at, held.rows, places))
            for at, held in enumerate(pool.held)
            for places in held.keys
        ):
            raise Passed("with rows that break a key")
        found = child.tried(
            material.of_schema(pool, material.SQLITE),
            {
                "reference": writer.query(case.first),
                "answer": writer.query(case.second),
                "seconds": 20.0,
            },
        ).outcome
        rows = int(proved.out.split()[1]) if proved.status == 1 else None
        if rows is None:
            return (
                None
                if isinstance(found, NoDifference)
                else f"agree is proved, and tried is {found}"
            )
        if not isinstance(found, Differs):
            return f"a witness of {rows} rows is proved, and tried is {found}"
        if len(found.kept) < rows:
            return f"a witness of {rows} rows is proved to be the smallest, and tried is {found}"
        if len(found.kept) > rows:
            if found.least in (ALL, JOINS):
                return (
                    f"a witness of {rows} rows is proved, and of {len(found.kept)} it is said that"
                    " all smaller ones were tried"
                )
            raise Passed("with a larger tried witness")
        return None
