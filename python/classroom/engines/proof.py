"""Which of many queries agree with one, as `ratest_plus grade` proves it."""
from __future__ import annotations

from collections.abc import Mapping, Sequence
from pathlib import Path

from classroom.engines import ratest as program
from classroom.base.errors import Fault
from classroom.process.limits import Limits
from ratest import printed

MOST_IN_LIST = 256  # that the program takes
# Below those of a process that looks for mistakes.
LIMITS = Limits(60.0, 1000, 32)
OPTIONS = ("--conflicts", "2000")


class Prover:
    """Over the files of an exercise, in an empty folder of its own."""

    def __init__(self, files: Mapping[str, bytes], folder: Path, limits: Limits = LIMITS) -> None:
        self.program = program.find("ratest_plus")
        self.folder = folder
        self.limits = limits
        for name, text in files.items():
            (folder / name).write_bytes(text)

    def agree(self, with_query: str, queries: Sequence[str]) -> list[bool]:
        """For each query whether it is proved to agree with the one."""
        found: list[bool] = []
        for start in range(0, len(queries), MOST_IN_LIST):
            found += self.in_list(with_query, queries[start : start + MOST_IN_LIST])
        return found

    def in_list(self, with_query: str, queries: Sequence[str]) -> list[bool]:
        names = [f"{number}.query" for number in range(len(queries))]
        (self.folder / "one.query").write_bytes(with_query.encode("utf-8", "replace"))
        for name, query in zip(names, queries):
            (self.folder / name).write_bytes(query.encode("utf-8", "replace"))
        (self.folder / "queries.list").write_text(
            "".join(f"{name}\n" for name in names), encoding="ascii"
        )
        words = ("grade", "schema.sql", ".", "one.query", "queries.list", *OPTIONS)
        ran = program.run(self.program, words, self.limits, self.folder)
        if not ran.passed and ran.status == printed.FINE:
            try:
                grades = printed.grades_of(ran.stdout.decode("utf-8", "replace"), names)
                return [grade.kind == "agrees" for grade in grades]
            except printed.Unreadable:
                pass
        if len(queries) == 1:
            if not ran.passed and not 0 < ran.status < printed.FILE_FAULT:
                raise Fault(f"ratest_plus failed with status {ran.status}")
            return [False]
        # A query that passes the limits takes its list with it.
        middle = len(queries) // 2
        return self.in_list(with_query, queries[:middle]) + self.in_list(
            with_query, queries[middle:]
        )
