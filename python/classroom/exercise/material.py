"""Reads the material of an exercise: `full.db` or `full.sql`, else schema.sql and the CSV files."""
from __future__ import annotations

import sqlite3
from collections.abc import Iterator, Mapping, Sequence
from dataclasses import replace
from pathlib import Path
from typing import Any, cast
from urllib.parse import quote

from classroom.exercise.importing import model
from classroom.exercise.importing.snapshot import DATABASE, SCRIPT
from classroom.exercise.importing.from_sqlite import Sqlite, written
from classroom.base.errors import Fault, shown
from classroom.exercise.rows import Cells, Foreign, Held, Pool
from classroom.sql.schema import Column, Table, literal, quoted
from classroom.exercise.typed_rows import POSTGRESQL, SQLITE, Made, Material
from classroom.sql.tokens import Dialect, Token, tokens, without_comments

PG = Dialect.POSTGRESQL
MOST_BYTES = 67_108_864
OTHER_ROWS = (
    "full.db or full.sql differs from schema.sql and the CSV files, which are tried in its place"
    " (import makes it anew): %s"
)
# How a text of COPY writes what would end a field or a line.
ESCAPES = {"b": "\b", "f": "\f", "n": "\n", "r": "\r", "t": "\t", "v": "\v"}


def read(folder: Path) -> Material | None:
    """The material as the database had it; None where the folder has none."""
    if (folder / DATABASE).is_file():
        return of_sqlite(folder / DATABASE)
    if (folder / SCRIPT).is_file():
        return of_script((folder / SCRIPT).read_bytes())
    return None


def of_sqlite(path: Path) -> Material:
    source = Sqlite(path)
    tables = source.tables(())
    source.close()
    database = sqlite3.connect(f"file:{quote(str(path.absolute()))}?mode=ro", uri=True)
    try:
        statements, found = [], []
        for table in tables.values():
            ((statement,),) = database.execute(
                "SELECT sql FROM sqlite_schema WHERE type = 'table' AND name ="
                f" {literal(table.name)}"
            ).fetchall()
            statements.append(without_comments(str(statement)))
            names = database.execute(
                f"SELECT name, type FROM pragma_table_xinfo({literal(table.name)}) WHERE hidden = 0"
                " ORDER BY cid"
            ).fetchall()
            rows = database.execute(
                f"SELECT {', '.join(quoted(name) for name, _ in names)} FROM {quoted(table.name)} "
                f"ORDER BY {', '.join(table.order)}"
            ).fetchall()
            found.append((table, [Column(name, kind) for name, kind in names], rows))
        views = [
            Made(name, sql, sql)
            for name, sql in database.execute(
                "SELECT name, sql FROM sqlite_schema WHERE type = 'view' ORDER BY rowid"
            )
        ]
    except sqlite3.Error as fault:
        raise Fault(f"{shown(str(path))}: {shown(str(fault))}") from None
    finally:
        database.close()
    return Material(
        SQLITE,
        pool_of(found),
        tuple(statements),
        tuple(replace(view, query=query_of(view.query)) for view in views),
    )


def pool_of(found: Sequence[tuple[model.Table, list[Column], list[Any]]]) -> Pool:
    order = [table.name for table, _, _ in found]
    held = []
    for table, columns, rows in found:
        names = [column.name for column in columns]
        keys = [
            tuple(names.index(name) for name in key.columns)
            for key in table.keys
            if set(key.columns) <= set(names)
        ]
        foreigns = []
        for foreign in table.foreigns:
            if foreign.table not in order or not foreign.to:
                continue
            to = [column.name for column in found[order.index(foreign.table)][1]]
            if set(foreign.columns) <= set(names) and set(foreign.to) <= set(to):
                foreigns.append(
                    Foreign(
                        tuple(map(names.index, foreign.columns)),
                        order.index(foreign.table),
                        tuple(map(to.index, foreign.to)),
                    )
                )
        held.append(
            Held(
                Table(written(table.name), tuple(columns)),
                cast("list[Cells]", rows),
                keys,
                foreigns,
            )
        )
    return Pool(b"", held)


def query_of(statement: str) -> str:
    """The query of a CREATE VIEW."""
    found = tokens(statement, PG)
    at = next((at for at, token in enumerate(found) if token.text.lower() == "as"), len(found) - 1)
    return statement[found[at].begin + len(found[at].text) :].strip().removesuffix(";")


def of_script(script: bytes) -> Material:
    """The material of what pg_dump and COPY wrote. The names of schemas are left out of it."""
    text = script.decode("utf-8", "surrogateescape")
    tables: dict[str, model.Table] = {}
    columns: dict[str, list[Column]] = {}
    rows: dict[str, list[Any]] = {}
    statements: dict[str, list[str]] = {}
    views: list[Made] = []
    before: list[str] = []
    for statement, data in parts(text):
        found = tokens(statement, PG)
        words = [token.text.upper() for token in found]
        plain = unqualified(statement, found)
        named = tokens(plain, PG)
        if words[:2] == ["CREATE", "TABLE"]:
            name = named[2].name
            tables[name] = model.Table(name, name)
            statements[name] = [without_comments(plain.split("\nPARTITION BY")[0], PG)]
        elif words[:2] in (["CREATE", "TYPE"], ["CREATE", "DOMAIN"]):
            before.append(plain)
        elif words[:2] == ["CREATE", "VIEW"]:
            views.append(Made(named[2].name, plain, query_of(plain)))
        elif words[:1] == ["COPY"]:
            name = named[1].name
            columns[name] = [
                Column(token.name, "") for token in named[3 : named_end(named)] if token.text != ","
            ]
            rows[name] = [tuple(map(field, line.split("\t"))) for line in data]
        elif words[:2] == ["ALTER", "TABLE"] and "CONSTRAINT" in words:
            constraint(named, plain, tables, statements)
    order = list(tables)
    return Material(
        POSTGRESQL,
        pool_of([(tables[name], columns.get(name, []), rows.get(name, [])) for name in order]),
        tuple(";\n".join(statements[name]) for name in order),
        tuple(views),
        ";\n".join(before),
    )


def part_of(script: bytes, numbers: Mapping[str, Sequence[int]]) -> bytes:
    """The script with the rows of these numbers alone, from 1, by the names of their tables."""
    made = []
    for statement, data in parts(script.decode("utf-8", "surrogateescape")):
        made.append(f"{statement};\n")
        if statement.startswith("COPY "):
            wanted = set(
                numbers.get(
                    written(tokens(unqualified(statement, tokens(statement, PG)), PG)[1].name), ()
                )
            )
            made += [f"{line}\n" for number, line in enumerate(data, 1) if number in wanted]
            made.append("\\.\n")
        made.append("\n")
    return "".join(made).encode("utf-8", "surrogateescape")


def parts(text: str) -> Iterator[tuple[str, list[str]]]:
    """The statements, each without its end, and the lines behind a COPY."""
    lines = iter(text.split("\n"))
    held: list[str] = []
    for line in lines:
        if not held and (not line.strip() or line.startswith(("--", "\\"))):
            continue
        held.append(line)
        if line.rstrip().endswith(";") and is_whole("\n".join(held)):
            statement, held = "\n".join(held).strip().removesuffix(";"), []
            data: list[str] = []
            if statement.startswith("COPY "):
                for row in lines:
                    if row == "\\.":
                        break
                    data.append(row)
            yield statement, data


def is_whole(text: str) -> bool:
    """Whether no text and no name is open at the end."""
    return not any(token.kind == "open" for token in tokens(text, PG))


def unqualified(statement: str, found: Sequence[Token]) -> str:
    """The statement without the names of schemas before those of tables and types."""
    made, end = [], 0
    for at, token in enumerate(found[:-2]):
        if (
            token.kind in ("word", "quoted")
            and found[at + 1].text == "."
            and found[at - 1].text != "."
            and token.name != "pg_catalog"
            and is_schema(found, at)
        ):
            made.append(statement[end : token.begin])
            end = found[at + 1].begin + 1
    return "".join([*made, statement[end:]])


def is_schema(found: Sequence[Token], at: int) -> bool:
    """Whether a name with a dot behind it is a schema's: it stands where a table or a type does."""
    before = found[at - 1].text.upper() if at else ""
    if before in (
        "TABLE",
        "ONLY",
        "VIEW",
        "TYPE",
        "DOMAIN",
        "REFERENCES",
        "FROM",
        "JOIN",
        "COPY",
        "AS",
        "::",
        "COLLATE",
    ):
        return True
    # A column's type behind its name, or a table behind a comma or a parenthesis of FROM.
    return (
        found[at - 1].kind in ("word", "quoted")
        and before not in WORDS
        or (
            before in ("(", ",")
            and at + 3 < len(found)
            and found[at + 3].text not in (",", ")", "=", ".")
            and found[at + 3].kind in ("word", "quoted")
        )
    )


WORDS = frozenset(
    "SELECT AND OR NOT ON WHERE BY CASE WHEN THEN ELSE IN IS LIKE BETWEEN DISTINCT HAVING".split()
)


def named_end(found: Sequence[Token]) -> int:
    return next((at for at, token in enumerate(found) if token.text == ")"), len(found))


def constraint(
    found: Sequence[Token],
    statement: str,
    tables: dict[str, model.Table],
    statements: dict[str, list[str]],
) -> None:
    """A key, which the table gets, or what its rows refer to."""
    words = [token.text.upper() for token in found]
    at = words.index("ADD")
    name = found[at - 1].name
    if name not in tables:
        return
    lists: list[list[str]] = []
    for number, token in enumerate(found):
        if token.text == "(":
            lists.append(
                [
                    one.name
                    for one in found[number + 1 :]
                    if one.begin < ending(found, number) and one.text != ","
                ]
            )
    if "FOREIGN" in words[at:]:
        target = found[words.index("REFERENCES") + 1].name
        tables[name].foreigns.append(
            model.Foreign(lists[0], target, lists[1] if len(lists) > 1 else [])
        )
    elif lists:
        statements[name].append(statement)
        if "UNIQUE" in words[at:] or "PRIMARY" in words[at:]:
            tables[name].keys.append(model.Key(lists[0], "PRIMARY" in words[at:]))


def ending(found: Sequence[Token], at: int) -> int:
    return next((token.begin for token in found[at:] if token.text == ")"), found[-1].begin)


def field(text: str) -> str | None:
    """A field of COPY."""
    if text == "\\N":
        return None
    if "\\" not in text:
        return text
    made, at = [], 0
    while at < len(text):
        if text[at] == "\\" and at + 1 < len(text):
            made.append(ESCAPES.get(text[at + 1], text[at + 1]))
            at += 1
        else:
            made.append(text[at])
        at += 1
    return "".join(made)
