"""The two products of databases, what is asked of them, and whole answers on all rows."""
from __future__ import annotations

import csv
import glob
import io
import os
import pwd
import re
import shutil
import subprocess
from collections.abc import Iterator, Sequence
from contextlib import contextmanager
from pathlib import Path

from classroom.sql.schema import literal, tables_of

TOP = Path(__file__).resolve().parents[2]
NULL = "\u2205"


def run(*words: str | Path, **more: object) -> subprocess.CompletedProcess[str]:
    return subprocess.run(words, capture_output=True, encoding="utf-8", check=False, **more)  # type: ignore[call-overload,no-any-return]


def classroom(*words: str | Path, **more: object) -> subprocess.CompletedProcess[str]:
    return run(TOP / "classroom", *words, **more)


class Sqlite:
    """Databases in files of their own."""

    def make(self, path: Path, text: str) -> None:
        self.database = f"{path}.db"
        made = run("sqlite3", "-bail", self.database, input=text)
        assert not made.returncode and not made.stderr, made.stderr

    def answer(self, query: str) -> subprocess.CompletedProcess[str]:
        return run("sqlite3", "-csv", "-noheader", "-nullvalue", NULL, self.database, query)


class Postgres:
    """Databases of a server in a temporary folder."""

    def __init__(self, place: Path) -> None:
        self.place = f"host={place} user=postgres"
        self.count = 0

    def make(self, path: Path, text: str) -> None:
        self.count += 1
        name = f"made_{self.count}"
        run(
            "psql",
            "-X",
            "-q",
            "-d",
            f"{self.place} dbname=postgres",
            "-c",
            f"CREATE DATABASE {name}",
        )
        self.database = f"{self.place} dbname={name}"
        made = run("psql", "-X", "-q", "-v", "ON_ERROR_STOP=1", "-d", self.database, input=text)
        assert not made.returncode, made.stderr

    def answer(self, query: str) -> subprocess.CompletedProcess[str]:
        return run(
            "psql",
            "-X",
            "-q",
            "-t",
            "--csv",
            "-P",
            f"null={NULL}",
            "-d",
            self.database,
            "-c",
            query,
        )


Product = Sqlite | Postgres


@contextmanager
def server(work: Path) -> Iterator[Postgres | None]:
    """A server of PostgreSQL in a folder of its own, under another user where this is root; None
    where it can't be had."""
    found = [shutil.which("initdb") or "", *sorted(glob.glob("/usr/lib/postgresql/*/bin/initdb"))]
    initdb = next((path for path in found if os.access(path, os.X_OK)), None)
    if not initdb or not shutil.which("psql"):
        yield None
        return
    control = os.path.join(os.path.dirname(os.path.realpath(initdb)), "pg_ctl")
    place = work / "server"
    place.mkdir()
    other: dict[str, object] = {}
    if os.getuid() == 0:
        users = {user.pw_name: user for user in pwd.getpwall()}
        user = users.get("postgres") or users["nobody"]
        other = {"user": user.pw_uid, "group": user.pw_gid, "extra_groups": []}
        work.chmod(0o711)
        os.chown(place, user.pw_uid, user.pw_gid)
    data = place / "data"
    made = run(
        initdb,
        "-D",
        data,
        "-A",
        "trust",
        "-N",
        "-U",
        "postgres",
        "-E",
        "UTF8",
        "--locale=C",
        cwd="/",
        **other,
    )
    assert not made.returncode, made.stderr
    # Not captured: the server would hold the pipe open.
    begun = subprocess.run(
        [
            control,
            "-D",
            data,
            "-w",
            "-l",
            place / "log",
            "-o",
            f"-k {place} -c listen_addresses= -c fsync=off",
            "start",
        ],
        stdout=subprocess.DEVNULL,
        stderr=subprocess.DEVNULL,
        cwd="/",
        check=False,
        **other,
    )  # type: ignore[call-overload]
    assert not begun.returncode, (place / "log").read_text()
    try:
        yield Postgres(place)
    finally:
        run(control, "-D", data, "-m", "immediate", "stop", cwd="/", **other)


def export(
    product: Product, folder: Path, words: Sequence[str] = ()
) -> subprocess.CompletedProcess[str]:
    return classroom("import", product.database, folder, *words)


def content(folder: Path) -> dict[str, str]:
    """What `ratest` reads of an exercise."""
    return {
        path.name: path.read_bytes().decode()
        for path in sorted(folder.iterdir())
        if path.suffix == ".csv" or path.name == "schema.sql"
    }


# Whole answers. Query 1 is the query where each given row is there, and nothing where one is not;
# query 2 is nothing. So the only witness is all rows, and what is printed for query 1 is the answer
# on them.


def guard(folder: Path) -> str:
    conditions = []
    texts = content(folder)
    for table in tables_of(texts["schema.sql"]):
        for row in list(csv.reader(io.StringIO(texts[f"{table.name}.csv"], newline="")))[1:]:
            parts = [
                (
                    f"x.{quoted(column.name)} IS NULL"
                    if value == ""
                    else (
                        f"x.{quoted(column.name)} ="
                        f" {value if column.kind == 'INTEGER' else literal(value)}"
                    )
                )
                for column, value in zip(table.columns, row, strict=True)
            ]
            conditions.append(
                f"EXISTS (SELECT * FROM {quoted(table.name)} x WHERE {' AND '.join(parts)})"
            )
    return " AND ".join(conditions)


def quoted(name: str) -> str:
    return '"' + name.replace('"', '""') + '"'


def printed_answer(text: str) -> set[tuple[str, ...]] | None:
    """The rows after `only query 1`, of a text whose other two lists are empty; each value as a
    text."""
    if text == "agree\n":
        return set()
    start = re.search(r"^only query 1: (\d+)\n", text, re.MULTILINE)
    assert start, text
    at, rows = start.end(), set()
    for _ in range(int(start[1])):
        row = []
        at += 2
        while True:
            cell = re.compile(r"NULL|-?\d+|'(?:[^']|'')*'").match(text, at)
            assert cell, text
            value = cell[0]
            row.append(
                NULL
                if value == "NULL"
                else value[1:-1].replace("''", "'")
                if value[0] == "'"
                else value
            )
            at = cell.end()
            if text[at] == "\n":
                at += 1
                break
            at += 2
        rows.add(tuple(row))
    return rows if text[at:] == "only query 2: 0\nboth: 0\n" else None


def whole_answers(ratest: Path, product: Product, work: Path, queries: Sequence[str]) -> str:
    """What is told of an export whose answers to queries are compared with those of the
    database."""
    folder = work / "whole folder"
    made = export(product, folder)
    assert made.returncode == 0, made.stderr
    export(product, work / "again")
    assert content(folder) == content(work / "again")
    whole = guard(folder)
    files = [work / f"{number}.sql" for number in (1, 2)]
    for query in queries:
        for file, condition in zip(files, (whole, "1 = 0")):
            file.write_bytes(f"SELECT * FROM ({query}) q WHERE {condition}".encode())
        ours = run(ratest, folder / "schema.sql", folder, *files)
        theirs = product.answer(query)
        assert theirs.returncode == 0, theirs.stderr
        rows = {tuple(row) for row in csv.reader(io.StringIO(theirs.stdout, newline=""))}
        assert ours.returncode == (1 if rows else 0), f"{query}: {ours.stdout}{ours.stderr}"
        assert printed_answer(ours.stdout) == rows, query
    return made.stderr
