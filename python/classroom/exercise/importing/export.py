"""From the tables that were found in the catalogue of a database to the files that `ratest` reads.
Every refusal comes before the first file is written. """
from __future__ import annotations

import json
import re
from collections.abc import Iterator, Mapping, Sequence
from pathlib import Path

from classroom.exercise.importing.snapshot import DATABASE, SCRIPT
from classroom.exercise.importing.model import Cell, Foreign, Source, Table
from classroom.base.errors import Fault, shown
from classroom.base.files import write
from classroom.sql.schema import MOST_ROWS, marked, spelled
from ratest.tables import csv_line

# The limits of `ratest`.
MOST_TABLES = MOST_COLUMNS = MOST_RULES = 64
MOST_BYTES = 4_194_304
# Of the tables as the database has them.
MOST_FULL = 67_108_864
FULL = (DATABASE, SCRIPT)

Tables = dict[str, Table]


def export(source: Source, folder: Path, names: Sequence[str], rows: int | None) -> list[str]:
    """Writes schema.sql and a CSV file a table; gives what has to be told."""
    chosen = choose(source, names)
    every = list(chosen.values())
    for table in every:
        source.look(table)
    notes = ([] if names else list(source.left)) + list(leave_out(chosen))
    check_limits(chosen, rows)
    for table in chosen.values():
        table.rows = source.first(table, MOST_ROWS if rows is None else rows)
    close(source, chosen)
    notes += check_rows(chosen)
    full_name, full = full_of(source, every, chosen)
    engine = source.engine()
    source.close()
    if rows is not None:
        notes += [
            f"{shown(table.name)}: {len(table.rows)} of {table.count} rows"
            for table in chosen.values()
        ]
    texts = {"schema.sql": schema_text(chosen)}
    texts.update({f"{table.written}.csv": csv_text(table) for table in chosen.values()})
    for name, text in texts.items():
        if len(text.encode()) > MOST_BYTES:
            raise Fault(f"{shown(name)} would be longer than {MOST_BYTES} bytes")
    folder.mkdir(parents=True, exist_ok=True)
    for name, text in texts.items():
        write(folder / name, text.encode())
    for name in FULL:
        (folder / name).unlink(missing_ok=True)
    if isinstance(full, bytes):
        write(folder / full_name, full)
    else:
        notes.append(f"{full_name} is not written: {full}")
    if engine:
        note_engine(folder / "exercise.toml", engine)
    return notes


def note_engine(path: Path, engine: Mapping[str, str]) -> None:
    """Puts the keys in front of what the file says, where it doesn't say them."""
    text = path.read_text(encoding="utf-8") if path.is_file() else ""
    lines = [
        f"{key} = {json.dumps(value)}\n"
        for key, value in engine.items()
        if not re.search(rf"(?m)^\s*{key}\s*=", text)
    ]
    if lines:
        write(path, ("".join(lines) + text).encode())


def full_of(source: Source, every: Sequence[Table], chosen: Tables) -> tuple[str, bytes | str]:
    """The tables as the database has them; also those of which no column is carried over, with all
    rows."""
    if sum(table.count for table in every if table.name not in chosen) > MOST_ROWS:
        every = list(chosen.values())
    name, full = source.full(every, {table.name: sorted(table.rows) for table in chosen.values()})
    if isinstance(full, bytes) and len(full) > MOST_FULL:
        return name, f"it would be longer than {MOST_FULL} bytes"
    return name, full


def choose(source: Source, names: Sequence[str]) -> Tables:
    """The tables that are exported, all where none is named. They stand in the order in which they
    were made."""
    tables = source.tables(names)
    folded = {source.fold(name) for name in tables}
    for name in names:
        if source.fold(name) not in folded:
            raise Fault(f"there is no table {shown(name)}")
    wanted = {source.fold(name) for name in names}
    chosen = {
        name: table for name, table in tables.items() if not names or source.fold(name) in wanted
    }
    for name, table in chosen.items():
        if not table.written or "/" in table.written:
            raise Fault(f"{shown(name)}: no file can have the name of this table")
    if not chosen:
        raise Fault("there is no table")
    return chosen


def leave_out(chosen: Tables) -> Iterator[str]:
    """Takes out the columns that can't be carried over, with their rules, and tells them and what
    others become.

    A key, a CHECK or a NOT NULL that is left out changes nothing, since the rows meet it and so
    does every part of them. A foreign key is left out only where a column of it is."""
    for table in chosen.values():
        where = shown(table.name)
        for column in table.columns:
            if not column.why and (
                not column.name or column.written.strip(" \t") != column.written
            ):
                column.why = (
                    "a name with a blank at an end or without a letter can't stand in a CSV file"
                )
            if column.why:
                yield f"{where}.{shown(column.name)}: left out: {column.why}"
            elif column.note:
                yield f"{where}.{shown(column.name)}: {column.note}"
        yield from (f"{where}: {note}" for note in table.notes)
    gone = {
        name: {column.name for column in table.columns if column.why}
        for name, table in chosen.items()
    }
    for name, table in chosen.items():
        yield from leave_out_keys(chosen, table, gone)
        yield from leave_out_checks(table, gone[name])
    for name, table in list(chosen.items()):
        table.columns = [column for column in table.columns if not column.why]
        if not table.columns:
            del chosen[name]
            yield f"{shown(name)}: left out: no column of it is carried over"
    if not chosen:
        raise Fault("no table has a column that can be carried over")
    for table in chosen.values():
        for foreign in table.foreigns:
            check_kinds(table, foreign, chosen)


def leave_out_keys(chosen: Tables, table: Table, gone: dict[str, set[str]]) -> Iterator[str]:
    for key in [key for key in table.keys if gone[table.name] & set(key.columns)]:
        table.keys.remove(key)
        kind = "PRIMARY KEY" if key.primary else "UNIQUE"
        yield f"{shown(table.name)}: left out with its column: {kind} ({shown(*key.columns)})"
    for foreign in list(table.foreigns):
        lost = gone[table.name] & set(foreign.columns)
        if not lost:
            check_target(table, foreign, chosen)
            lost = gone[foreign.table] & set(foreign.to)
        if lost:
            table.foreigns.remove(foreign)
            yield (
                f"{shown(table.name)}: left out with its column: FOREIGN KEY"
                f" ({shown(*foreign.columns)}); a witness may lack the row of"
                f" {shown(foreign.table)}"
            )


def leave_out_checks(table: Table, gone: set[str]) -> Iterator[str]:
    room = MOST_RULES - len(table.keys) - len(table.foreigns)
    for check in list(table.checks):
        if check.columns & gone:
            note = f"left out with its column: CHECK {check.name}"
        elif check.why or len(check.conditions) > room:
            note = (
                f"left out: CHECK {check.name}, which"
                f" {check.why or f'is past the {MOST_RULES} rules of a table'}"
            )
        else:
            room -= len(check.conditions)
            continue
        table.checks.remove(check)
        yield f"{shown(table.name)}: {note}"


def check_target(table: Table, foreign: Foreign, chosen: Tables) -> None:
    where = f"{shown(table.name)}: FOREIGN KEY ({shown(*foreign.columns)})"
    if foreign.table not in chosen:
        raise Fault(f"{where} refers to the table {shown(foreign.table)}, which is not exported")
    names = [column.name for column in chosen[foreign.table].columns]
    if not foreign.to:
        raise Fault(f"{where} refers to {shown(foreign.table)}, which has no primary key")
    for name in foreign.to:
        if name not in names:
            raise Fault(
                f"{where} refers to {shown(foreign.table)}.{shown(name)}, which is not there"
            )


def check_kinds(table: Table, foreign: Foreign, chosen: Tables) -> None:
    target = chosen[foreign.table]
    kinds = [
        [of.columns[place].kind for place in of.places(names)]
        for of, names in ((table, foreign.columns), (target, foreign.to))
    ]
    if kinds[0] != kinds[1] or any(
        len(set(names)) < len(names) for names in (foreign.columns, foreign.to)
    ):
        raise Fault(
            f"{shown(table.name)}: FOREIGN KEY ({shown(*foreign.columns)}) and "
            f"{shown(foreign.table)} ({shown(*foreign.to)}) differ in number or type"
        )


def check_limits(chosen: Tables, rows: int | None) -> None:
    if len(chosen) > MOST_TABLES:
        raise Fault(
            f"{len(chosen)} tables are more than the {MOST_TABLES} that are read; name some"
        )
    for table in chosen.values():
        if len(table.columns) > MOST_COLUMNS or len(table.keys) + len(table.foreigns) > MOST_RULES:
            raise Fault(
                f"{shown(table.name)}: more than {MOST_COLUMNS} columns, or keys and foreign keys"
            )
    total = sum(table.count for table in chosen.values())
    if rows is None and total > MOST_ROWS:
        raise Fault(
            f"{total} rows are more than the {MOST_ROWS} that are read; --rows N takes N of each"
            " table, and `classroom pick` finds those that tell the mistakes"
        )


def close(source: Source, chosen: Tables) -> None:
    """Adds the rows that rows refer to, until none is missing but those that aren't in the
    database."""
    grown = True
    while grown:
        grown = any(
            [
                fetched(source, table, foreign, chosen[foreign.table])
                for table in chosen.values()
                for foreign in table.foreigns
            ]
        )
        total = sum(len(table.rows) for table in chosen.values())
        if total > MOST_ROWS:
            raise Fault(
                f"with the rows that they refer to these are {total}, more than the {MOST_ROWS} "
                "that are read; take fewer"
            )


def fetched(source: Source, table: Table, foreign: Foreign, target: Table) -> bool:
    """Adds the rows of the target that rows of the table refer to; whether there were any."""
    places = table.places(foreign.columns), target.places(foreign.to)
    ours, theirs = (
        {tuple(row[place] for place in picks) for row in of.rows.values()}
        for of, picks in zip((table, target), places)
    )
    wanted = {values for values in ours - theirs - foreign.unmet if None not in values}
    grown = False
    for number, row in source.matching(target, places[1], sorted(wanted, key=repr)).items():
        values = tuple(row[place] for place in places[1])
        # Where the columns are no key, the first of several rows is enough.
        if values in wanted:
            wanted.discard(values)
            target.rows[number] = row
            grown = True
    foreign.unmet |= wanted
    return grown


def check_rows(chosen: Tables) -> Iterator[str]:
    """Tells the rows that meet no foreign key; refuses what breaks a key."""
    for table in chosen.values():
        where = shown(table.name)
        for foreign in table.foreigns:
            if foreign.unmet:
                yield (
                    f"{where}: FOREIGN KEY ({shown(*foreign.columns)}): values that no row of"
                    f" {shown(foreign.table)} has: {len(foreign.unmet)}; no witness has rows with"
                    " them"
                )
        lines = list(table.rows.values())
        for at, column in enumerate(table.columns):
            if any(line[at] == "" for line in lines):
                raise Fault(
                    f"{where}.{shown(column.name)}: an empty text, which a CSV file can't tell from"
                    " NULL"
                )
            if column.not_null and any(line[at] is None for line in lines):
                raise Fault(f"{where}.{shown(column.name)}: NULL in a column that is NOT NULL")
        for key in table.keys:
            picked = [tuple(line[at] for at in table.places(key.columns)) for line in lines]
            picked = [values for values in picked if None not in values]
            if len(set(picked)) < len(picked):
                raise Fault(f"{where}: two rows have the same key ({shown(*key.columns)})")


def schema_text(chosen: Tables) -> str:
    texts = []
    for table in chosen.values():
        write_as = {column.name: spelled(column.written) for column in table.columns}
        items = [
            f"{write_as[column.name]} {column.kind}{' NOT NULL' if column.not_null else ''}"
            for column in table.columns
        ]
        items += [
            f"{'PRIMARY KEY' if key.primary else 'UNIQUE'} ({', '.join(write_as[name] for name in key.columns)})"
            for key in table.keys
        ]
        for foreign in table.foreigns:
            target = {
                column.name: spelled(column.written) for column in chosen[foreign.table].columns
            }
            items.append(
                f"FOREIGN KEY ({', '.join(write_as[name] for name in foreign.columns)}) REFERENCES "
                f"{spelled(chosen[foreign.table].written)} ({', '.join(target[name] for name in foreign.to)})"
            )
        items += [text for check in table.checks for text in check.written(write_as)]
        texts.append(
            f"CREATE TABLE {spelled(table.written)} (\n  " + ",\n  ".join(items) + "\n);\n"
        )
    return "\n".join(texts)


def csv_text(table: Table) -> str:
    lines: list[Sequence[Cell]] = [[column.written for column in table.columns]]
    lines += [table.rows[number] for number in sorted(table.rows)]
    text = "".join(map(csv_line, lines))
    return marked(text)
