"""Reads an SQLite file through Python's sqlite3, and changes nothing in it."""
from __future__ import annotations

import re
import sqlite3
from collections.abc import Iterator, Mapping, Sequence
from contextlib import contextmanager
from pathlib import Path
from typing import Any
from urllib.parse import quote

from classroom.exercise.importing import snapshot as full
from classroom.exercise.importing.model import Cell, Column, Foreign, Key, Table
from classroom.exercise.importing.dates import one_form
from classroom.exercise.importing.sqlite_checks import checks_of, fold, has_collation
from classroom.base.errors import Fault, shown
from classroom.sql.schema import PLAIN, RESERVED, literal, quoted

# How many rows are looked up at once.
AT_ONCE = 100


class NotText:
    """Stands for a text of the database that is not UTF-8."""


def text_of(raw: bytes) -> str | NotText:
    try:
        return raw.decode("utf-8")
    except UnicodeDecodeError:
        return NotText()


def written(name: str) -> str:
    """Names of letters, digits and _ in small letters, as `ratest` reads them; others as they
    are."""
    return fold(name) if PLAIN.fullmatch(fold(name)) and fold(name) not in RESERVED else name


def kind_of(declared: str) -> str | None:
    """SQLite's own rule, by which a column of the word POINT is one of whole numbers; None for the
    others."""
    word = fold(declared)
    if "int" in word:
        return "INTEGER"
    return "TEXT" if any(part in word for part in ("char", "clob", "text")) else None


def family_of(declared: str) -> str:
    """What else a declared type may be, if the values are: moment, boolean or numeric; "" for
    none."""
    word = fold(declared).strip()
    for family, pattern in (
        ("moment", "date|time|datetime|timestamp"),
        ("boolean", "bool|boolean"),
        ("numeric", "numeric|decimal|dec"),
    ):
        if re.fullmatch(rf"({pattern})\b.*", word, re.DOTALL):
            return family
    return ""


class Sqlite:
    """An SQLite file, within one transaction."""

    def __init__(self, path: Path) -> None:
        self.left: list[str] = []
        self.moments: set[tuple[str, str]] = set()
        with self.faults():
            self.connection = sqlite3.connect(
                f"file:{quote(str(path.absolute()))}?mode=ro", uri=True, isolation_level=None
            )
            self.connection.text_factory = text_of
            self.connection.execute("BEGIN")
            self.encoding = str(self.ask("PRAGMA encoding")[0][0]).lower()

    @contextmanager
    def faults(self) -> Iterator[None]:
        try:
            yield
        except sqlite3.Error as fault:
            raise Fault(shown(str(fault))) from None

    def fold(self, name: str) -> str:
        return fold(name)

    def ask(self, query: str, values: Sequence[Cell] = ()) -> list[tuple[Any, ...]]:
        with self.faults():
            return self.connection.execute(query, values).fetchall()

    def close(self) -> None:
        self.connection.close()

    def full(
        self, tables: Sequence[Table], numbers: Mapping[str, Sequence[int]]
    ) -> tuple[str, bytes | str]:
        with self.faults():
            self.connection.text_factory = lambda raw: raw.decode("utf-8", "surrogateescape")
            return full.DATABASE, full.of_sqlite(self.connection, tables, numbers)

    def engine(self) -> Mapping[str, str]:
        return {}

    def tables(self, names: Sequence[str]) -> dict[str, Table]:
        tables: dict[str, Table] = {}
        self.of: dict[str, Table] = {}
        wanted = {fold(name) for name in names}
        for name, no_rowid in self.ask(
            "SELECT l.name, l.wr FROM pragma_table_list l JOIN sqlite_schema s ON s.type = 'table' "
            "AND s.name = l.name WHERE l.schema = 'main' AND l.type = 'table' "
            "AND l.name NOT LIKE 'sqlite\\_%' ESCAPE '\\' ORDER BY s.rowid"
        ):
            table = tables[name] = self.of[fold(name)] = Table(name, written(name))
            self.read_columns(table, bool(no_rowid), not names or fold(name) in wanted)
        for table in tables.values():
            self.read_rules(table)
        self.left = [
            f"{shown(name)}: left out: a {kind}"
            for name, kind in self.ask(
                "SELECT name, type || substr(' table', 1, 6 * (type = 'virtual')) FROM"
                " pragma_table_list WHERE schema = 'main' AND type IN ('view', 'virtual') ORDER BY"
                " name"
            )
        ]
        return tables

    def read_columns(self, table: Table, no_rowid: bool, is_wanted: bool) -> None:
        primary = {}
        for name, declared, not_null, place, hidden in self.ask(
            'SELECT name, type, "notnull", pk, hidden FROM'
            f" pragma_table_xinfo({literal(table.name)}) ORDER BY cid"
        ):
            column = Column(name, written(name), kind_of(declared), bool(not_null))
            if hidden:
                column.why = "a generated column"
            elif column.kind is None:
                column.why = f"the type {shown(declared) or 'without a name'} is not read"
                if is_wanted and family_of(declared):
                    self.read_values(table, column, declared)
            table.columns.append(column)
            if place:
                primary[place] = name
        if primary:
            table.keys.append(Key([primary[place] for place in sorted(primary)], True))
            table.order = [quoted(name) for name in table.keys[0].columns]
        if not no_rowid:
            # A primary key of a table with a rowid may have NULL more than once.
            taken = {fold(column.name) for column in table.columns}
            table.order += [name for name in ("rowid", "_rowid_", "oid") if name not in taken][:1]
        table.order = table.order or [quoted(column.name) for column in table.columns]

    def read_values(self, table: Table, column: Column, declared: str) -> None:
        """Carries over a column of moments, booleans or numbers where all of its values are
        such."""
        family, name = family_of(declared), quoted(column.name)
        values = [
            value
            for value, in self.ask(
                f"SELECT DISTINCT {name} FROM {quoted(table.name)} WHERE {name} NOTNULL"
            )
        ]
        if family == "moment":
            kind, note = "TEXT", "texts of ISO 8601, which compare by their bytes"
            is_good = one_form(values) if all(isinstance(value, str) for value in values) else False
            lacks = "are not texts of ISO 8601 of one form"
        elif family == "boolean":
            kind, note, lacks = "INTEGER", "0 and 1", "are not 0 and 1"
            is_good = all(type(value) is int and value in (0, 1) for value in values)
        else:
            kind, note, lacks = "INTEGER", "whole numbers", "are not whole"
            is_good = all(type(value) is int for value in values)
        if is_good:
            column.kind, column.why, column.note = (
                kind,
                "",
                f"{shown(declared)} becomes {kind}: {note}",
            )
        else:
            column.why += f", since its values {lacks}"
        if is_good and family == "moment":
            self.moments.add((table.name, column.name))

    def read_rules(self, table: Table) -> None:
        own = literal(table.name)
        uniques: dict[str, list[str | None]] = {}
        for _, index, partial, place, name in self.ask(
            f"SELECT i.seq, i.name, i.partial, x.cid, x.name FROM pragma_index_list({own}) i, "
            "pragma_index_xinfo(i.name) x WHERE i.\"unique\" AND i.origin <> 'pk' AND x.key "
            "ORDER BY i.seq DESC, x.seqno"
        ):
            uniques.setdefault(index, []).append(name)
            if partial or place < 0:
                uniques[index].append(None)
        for index, names in uniques.items():
            known = [name for name in dict.fromkeys(names) if name is not None]
            if None in names:
                table.notes.append(
                    f"left out: the unique index {shown(index)}, which is partial or on an"
                    " expression"
                )
            else:
                table.keys.append(Key(known, False))
        self.read_foreigns(table, own)
        ((statement,),) = self.ask(
            f"SELECT sql FROM sqlite_schema WHERE type = 'table' AND name = {own}"
        )
        table.checks += checks_of(
            statement,
            table.name,
            table.columns,
            self.encoding,
            [column.name for column in table.columns if (table.name, column.name) in self.moments],
        )
        if has_collation(statement):
            table.notes.append("left out: COLLATE; texts are compared by their bytes")
        for (trigger,) in self.ask(
            "SELECT name FROM sqlite_schema WHERE type = 'trigger' "
            f"AND tbl_name = {own} COLLATE NOCASE ORDER BY name"
        ):
            table.notes.append(f"left out: the trigger {shown(trigger)}")

    def read_foreigns(self, table: Table, own: str) -> None:
        foreigns: dict[int, tuple[str, list[tuple[str, str | None]]]] = {}
        for number, to_table, name, to_name in self.ask(
            f'SELECT id, "table", "from", "to" FROM pragma_foreign_key_list({own}) ORDER BY id'
            " DESC, seq"
        ):
            foreigns.setdefault(number, (to_table, []))[1].append(
                (self.named(table, name), to_name)
            )
        for to_table, pairs in foreigns.values():
            target = self.of.get(fold(to_table))
            to = [name for _, name in pairs if name is not None]
            if target and len(to) < len(pairs):
                to = next((key.columns for key in target.keys if key.primary), [])
            elif target:
                to = [self.named(target, name) for name in to]
            table.foreigns.append(
                Foreign([name for name, _ in pairs], target.name if target else to_table, to)
            )

    def named(self, table: Table, name: str) -> str:
        return next(
            (column.name for column in table.columns if fold(column.name) == fold(name)), name
        )

    def look(self, table: Table) -> None:
        strays = [
            f"coalesce(sum(typeof({quoted(column.name)}) NOT IN ('null',"
            f" '{(column.kind or '').lower()}')), 0)"
            for column in table.columns
        ]
        nulls = [f"coalesce(sum({quoted(column.name)} IS NULL), 0)" for column in table.columns]
        ((table.count, *counts),) = self.ask(
            f"SELECT {', '.join(['count(*)', *strays, *nulls])} FROM {quoted(table.name)}"
        )
        for column, stray in zip(table.columns, counts):
            if not column.why and stray:
                column.why = f"{column.kind}, but {stray} of its values are of another type"
        empty = {
            column.name for column, count in zip(table.columns, counts[len(strays) :]) if count
        }
        for key in table.keys:
            if key.primary and empty & set(key.columns):
                # SQLite lets them in; then the rule is that of UNIQUE.
                key.primary = False
                table.notes.append(
                    f"PRIMARY KEY ({shown(*key.columns)}) has NULL in some rows: written as UNIQUE"
                )

    def first(self, table: Table, count: int) -> dict[int, tuple[Cell, ...]]:
        return self.rows(table, "n <= ?", [count])

    def matching(
        self, table: Table, places: Sequence[int], values: Sequence[tuple[Cell, ...]]
    ) -> dict[int, tuple[Cell, ...]]:
        found: dict[int, tuple[Cell, ...]] = {}
        one = f"({', '.join('?' for _ in places)})"
        for start in range(0, len(values), AT_ONCE):
            part = values[start : start + AT_ONCE]
            found.update(
                self.rows(
                    table,
                    (
                        f"({', '.join(f'c{place}' for place in places)}) IN (VALUES"
                        f" {', '.join(one for _ in part)})"
                    ),
                    [cell for row in part for cell in row],
                )
            )
        return found

    def rows(
        self, table: Table, condition: str, values: Sequence[Cell]
    ) -> dict[int, tuple[Cell, ...]]:
        # Without a unary plus the column's collation would take different texts for equal.
        cells = [f"+{quoted(column.name)} AS c{at}" for at, column in enumerate(table.columns)]
        answer = self.ask(
            (
                f"SELECT n, {', '.join(f'c{at}' for at in range(len(cells)))} FROM (SELECT"
                f" row_number() OVER (ORDER BY {', '.join(table.order)}) AS n,"
                f" {', '.join(cells)} FROM {quoted(table.name)}) AS x WHERE {condition} ORDER BY n"
            ),
            values,
        )
        for number, *row in answer:
            if any(isinstance(cell, NotText) for cell in row):
                raise Fault(f"{shown(table.name)}: row {number} has a text that is not UTF-8")
        return {number: tuple(row) for number, *row in answer}
