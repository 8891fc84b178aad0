"""What a database has of the exported tables as it has it: `full.db` of SQLite, `full.sql` of
PostgreSQL.

In these are the real types, collations and all CHECKs, the same rows in the same order as in the
CSV files, and the views over these tables. Triggers, functions, sequences and what a column gets
where nothing is said are left out. """
from __future__ import annotations

import os
import shutil
import sqlite3
import subprocess
import tempfile
from collections.abc import Mapping, Sequence
from pathlib import Path
from typing import Any

from classroom.exercise.importing.model import Table
from classroom.base.errors import Fault, shown
from classroom.sql.schema import literal, quoted

DATABASE, SCRIPT = "full.db", "full.sql"
# Of what `pg_dump` tells, what is kept; of tables those that are exported.
KEPT = ("TYPE", "DOMAIN", "TABLE", "CONSTRAINT", "VIEW")
NUMBER = "ratest number"
PG_DUMP_SECONDS = 300


def of_sqlite(
    source: sqlite3.Connection, tables: Sequence[Table], numbers: Mapping[str, Sequence[int]]
) -> bytes:
    """The bytes of a database with the tables and just the rows of these numbers, all where none
    are said."""
    made = sqlite3.connect(":memory:", isolation_level=None)
    made.execute("PRAGMA ignore_check_constraints = ON")
    try:
        for table in tables:
            ((statement,),) = source.execute(
                "SELECT sql FROM sqlite_schema WHERE type = 'table' AND name ="
                f" {literal(table.name)}"
            ).fetchall()
            made.execute(statement)
            names = [
                quoted(name)
                for name, in source.execute(
                    f"SELECT name FROM pragma_table_xinfo({literal(table.name)}) WHERE hidden = 0"
                    " ORDER BY cid"
                )
            ]
            wanted = set(numbers.get(table.name, ()))
            put = (
                f"INSERT INTO {quoted(table.name)} ({', '.join(names)}) VALUES"
                f" ({', '.join('?' * len(names))})"
            )
            rows = source.execute(
                f"SELECT {', '.join(names)} FROM {quoted(table.name)} ORDER BY"
                f" {', '.join(table.order)}"
            )
            for number, row in enumerate(rows.fetchall(), 1):
                if table.name not in numbers or number in wanted:
                    made.execute(put, row)
        left = source.execute(
            "SELECT name, sql FROM sqlite_schema WHERE type = 'view' ORDER BY rowid"
        ).fetchall()
        while left:
            later = [view for view in left if not takes_view(made, *view)]
            if len(later) == len(left):
                break
            left = later
        return made.serialize()
    except sqlite3.Error as fault:
        raise Fault(f"{DATABASE}: {shown(str(fault))}") from None
    finally:
        made.close()


def takes_view(made: sqlite3.Connection, name: str, statement: str) -> bool:
    """Makes a view, if all that it names is there."""
    try:
        made.execute(statement)
        made.execute(f"SELECT * FROM {quoted(name)} LIMIT 0")
        return True
    except sqlite3.Error:
        made.execute(f"DROP VIEW IF EXISTS {quoted(name)}")
        return False


def of_postgres(
    connection: Any, tables: Sequence[Table], numbers: Mapping[str, Sequence[int]]
) -> bytes | str:
    """The text of the script, or why there is none."""
    if not shutil.which("pg_dump") or not shutil.which("pg_restore"):
        return "the program pg_dump is not there: apt-get install postgresql-client"
    schemas = dict(
        connection.execute(
            "SELECT c.relname, n.nspname FROM pg_class c JOIN pg_namespace n ON n.oid ="
            " c.relnamespace WHERE c.relkind IN ('r', 'p') AND pg_table_is_visible(c.oid) AND"
            " n.nspname <> 'pg_catalog'"
        ).fetchall()
    )
    try:
        script = dumped(connection, {(schemas[table.name], table.name) for table in tables})
    except (OSError, subprocess.SubprocessError) as fault:
        said = fault.stderr if isinstance(fault, subprocess.CalledProcessError) else ""
        return f"pg_dump: {shown((said or str(fault)).strip().splitlines()[-1])}"
    parts = [script]
    for table in tables:
        names = ", ".join(
            quoted(name)
            for name, in connection.execute(
                (
                    "SELECT attname FROM pg_attribute WHERE attrelid = %s::regclass AND attnum > 0"
                    " AND NOT attisdropped AND attgenerated = '' ORDER BY attnum"
                ),
                (quoted(table.name),),
            ).fetchall()
        )
        rows = (
            f"SELECT row_number() OVER (ORDER BY {', '.join(table.order)}) AS {quoted(NUMBER)}, *"
            f" FROM {quoted(table.name)}"
        )
        chosen = ""
        if table.name in numbers:
            chosen = (
                f" WHERE {quoted(NUMBER)} IN ({', '.join(map(str, numbers[table.name])) or 'NULL'})"
            )
        parts.append(
            f"COPY {quoted(schemas[table.name])}.{quoted(table.name)} ({names}) FROM stdin;\n".encode()
        )
        with connection.cursor().copy(
            f"COPY (SELECT {names} FROM ({rows}) AS x{chosen} ORDER BY {quoted(NUMBER)}) TO STDOUT"
        ) as copy:
            parts += [bytes(block) for block in copy]
        parts.append(b"\\.\n\n")
    return b"".join(parts)


def dumped(connection: Any, tables: set[tuple[str, str]]) -> bytes:
    """What makes the tables, by pg_dump."""
    environment = {
        **os.environ,
        "PGPASSWORD": connection.info.password or os.environ.get("PGPASSWORD", ""),
    }
    quiet: dict[str, Any] = {
        "check": True,
        "stdin": subprocess.DEVNULL,
        "capture_output": True,
        "timeout": PG_DUMP_SECONDS,
    }
    with tempfile.TemporaryDirectory(prefix="classroom-") as name:
        archive, listed = Path(name) / "archive", Path(name) / "list"
        subprocess.run(
            [
                "pg_dump",
                "--schema-only",
                "--no-owner",
                "--no-privileges",
                "--no-comments",
                "-Fc",
                "-f",
                archive,
                "-d",
                connection.info.dsn,
            ],
            env=environment,
            text=True,
            **quiet,
        )
        lines = subprocess.run(
            ["pg_restore", "-l", archive], text=True, **quiet
        ).stdout.splitlines()
        listed.write_text("\n".join(line for line in lines if is_kept(line, tables)) + "\n")
        return subprocess.run(["pg_restore", "--no-owner", "-L", listed, "-f", "-", archive], **quiet).stdout  # type: ignore[no-any-return]


def is_kept(line: str, tables: set[tuple[str, str]]) -> bool:
    """Whether a line of the contents of an archive, as `215; 1259 16386 TABLE public student
    owner`, stands for what is kept."""
    words = line.split(" ")
    if len(words) < 6 or words[3:5] == ["FK", "CONSTRAINT"] or words[4] in ("DATA", "ATTACH"):
        return (
            len(words) > 5
            and words[3:5] == ["FK", "CONSTRAINT"]
            and is_of(" ".join(words[5:]), tables)
        )
    if words[3] not in KEPT:
        return False
    return words[3] not in ("TABLE", "CONSTRAINT") or is_of(" ".join(words[4:]), tables)


def is_of(rest: str, tables: set[tuple[str, str]]) -> bool:
    return any(rest.startswith(f"{schema} {table} ") for schema, table in tables)
