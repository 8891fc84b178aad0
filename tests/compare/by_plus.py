"""The second program: grades and certificates against the first one, named rows and algebra texts
against SQLite."""
from __future__ import annotations

from contextlib import closing
from dataclasses import dataclass
from pathlib import Path
from random import Random
from typing import Optional

from . import steps
from .algebra import Algebra
from .by_sqlite import Database, expected, opened, told
from .change import changed
from .draw import Draw, Limits
from .model import Case, Row, cells, witness_text
from .program import (
    Answer,
    Passed,
    call,
    files,
    folder_of,
    program,
    query_text,
    ratest,
    ratest_plus,
)


def random_of(case: Case) -> Random:
    """Further draws of a case hang on its queries alone."""
    return Random(query_text(case.first) + query_text(case.second))


def grade_of(answer: Answer) -> str:
    """What a line of grades says where `ratest` alone answers so."""
    line = (answer.out or answer.err).decode().split("\n")[0]
    if answer.status in (0, 1):
        return line.replace("witness: ", "witness ")
    if answer.status == 3:
        return "refused: " + line.removeprefix("ratest: ").split(": ", 1)[1]
    raise Passed("above the work limit" if line.startswith("ratest: limit: work") else "no verdict")


@dataclass(frozen=True)
class Grades:
    name: str = "compare_grades"
    limits: Limits = Limits()

    def difference(self, case: Case) -> Optional[str]:
        draw = Draw(random_of(case), self.limits, case.tables)
        queries = [case.second, case.first] + [changed(case.second, draw) for _ in range(2)]
        with folder_of(case) as folder:
            wanted = ""
            for at, query in enumerate(queries):
                (folder / f"{at}.answer").write_text(query_text(query), encoding="utf-8")
                lone = ratest_on(folder, f"{at}.answer")
                wanted += f"{folder}/{at}.answer: {grade_of(lone)}\n"
            wanted += f"graded: {len(queries)}\n"
            paths = "".join(f"{folder}/{at}.answer\n" for at in range(len(queries)))
            (folder / "list").write_text(paths, encoding="utf-8")
            schema, rows, reference, _ = files(folder)
            answer = ratest_plus(["grade", schema, rows, reference, f"{folder}/list"])
        if answer.err.endswith(b": arithmetic past 128 bits\n"):
            # The reference is refused, and so is the whole call.
            raise Passed("arithmetic past 128 bits")
        if (answer.status, answer.out.decode(), answer.err) == (0, wanted, b""):
            return None
        return f"wanted\n{wanted}\ngot status {answer.status} and\n{answer.out!r} {answer.err!r}"


def ratest_on(folder: Path, second: str) -> Answer:
    kept = (folder / "2.sql").read_bytes()
    (folder / "2.sql").write_bytes((folder / second).read_bytes())
    try:
        return ratest(folder)
    finally:
        (folder / "2.sql").write_bytes(kept)


@dataclass(frozen=True)
class Rows:
    """The fewest rows on which the first query answers with a row, and the second doesn't."""

    name: str = "compare_rows"
    limits: Limits = Limits()

    def difference(self, case: Case) -> Optional[str]:
        with closing(opened(case)) as database:
            row = self.row_of(database)
            wanted = self.expected(database, row)
        with folder_of(case) as folder:
            answer = ratest_plus(["row", cells(row), *files(folder)])
        if answer.status == 5 or answer.err.endswith(b": arithmetic past 128 bits\n"):
            raise Passed("above a limit")
        status = 0 if wanted == "never\n" else 1
        if (answer.status, answer.out.decode(), answer.err) == (status, wanted, b""):
            return None
        return (
            f"row {cells(row)}\nwanted status {status} and\n{wanted}\ngot status"
            f" {answer.status} and\n{answer.out.decode()}{answer.err.decode()}"
        )

    def row_of(self, database: Database) -> Row:
        """A row of the first answer on one of the choices."""
        random = random_of(database.case)
        found: set[Row] = set()
        for choice in database.choices():
            if database.put(choice):
                found |= database.answer(database.first)
                database.clear(choice)
            if len(found) >= 3:
                break
        if not found:
            raise Passed("no row")
        return random.choice(sorted(found, key=repr))

    def expected(self, database: Database, row: Row) -> str:
        for choice in database.choices():
            if database.put(choice):
                first, second = database.answer(database.first), database.answer(database.second)
                database.clear(choice)
                if row in first and row not in second:
                    return witness_text(database.case, list(choice), first, second)
        return "never\n"


@dataclass(frozen=True)
class AlgebraTexts:
    name: str = "compare_algebra"
    limits: Limits = Limits(rows=6)

    def difference(self, case: Case) -> Optional[str]:
        algebra = Algebra(Draw(random_of(case), self.limits, case.tables))
        left = algebra.relation(2)
        right = next(
            (
                other
                for other in (algebra.relation(2) for _ in range(50))
                if [kind for _, kind in other.columns] == [kind for _, kind in left.columns]
            ),
            None,
        )
        if right is None:
            raise Passed("no second text")
        with closing(Database(case, left.sql, right.sql)) as database:
            wanted = expected(database)
        with folder_of(case) as folder:
            (folder / "1.sql").write_text(left.text + "\n", encoding="utf-8")
            (folder / "2.sql").write_text(right.text + "\n", encoding="utf-8")
            difference = told(wanted, ratest_plus(["ra", *files(folder)]))
        return difference and f"{left.text}\n{right.text}\n{difference}"


@dataclass(frozen=True)
class Certificates:
    """The verdict is that of `ratest`, `check` accepts the file, and so does a checker of steps
    that shares nothing with it."""

    name: str = "compare_certificates"
    limits: Limits = Limits(rows=12)

    def difference(self, case: Case) -> Optional[str]:
        with folder_of(case) as folder:
            verdict = grade_of(ratest(folder))
            if verdict.startswith("refused"):
                raise Passed("refused")
            made = ratest_plus(["prove", *files(folder)])
            (folder / "certificate").write_bytes(made.out)
            checked = ratest_plus(["check", f"{folder}/certificate", *files(folder)])
            encoding = call([program("measure"), "clauses", *files(folder)])
        told = self.fault(verdict, made, encoding)
        wanted = f"valid: {verdict}\n".encode()
        if told is None and (checked.status, checked.out, checked.err) == (0, wanted, b""):
            return None
        return (
            f"verdict {verdict}\n{told}\nprove: status"
            f" {made.status} {made.err!r}\n{made.out.decode()}\ncheck: status"
            f" {checked.status} {checked.out!r} {checked.err!r}"
        )

    def fault(self, verdict: str, made: Answer, encoding: Answer) -> Optional[str]:
        text = made.out.decode()
        if f"verdict {verdict}" not in text.splitlines():
            return "the certificate has another verdict"
        # No choice has fewer rows than none.
        if verdict == "witness 0":
            return None
        return steps.fault(text, steps.read_encoding(encoding.out.decode()))
