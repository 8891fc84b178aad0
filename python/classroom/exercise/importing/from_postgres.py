"""Reads a PostgreSQL database through psycopg, in a transaction that changes nothing.

The catalogue is read in pg_catalog: information_schema shows the keys of a table only to who may
change the table, and knows no indexes. """
from __future__ import annotations

from collections.abc import Callable, Iterator, Mapping, Sequence
from contextlib import contextmanager
from dataclasses import replace
from typing import Any

from classroom.exercise.importing import snapshot as full
from classroom.exercise.importing.checks import EQUALITY, NOTHING, ORDER, Side
from classroom.exercise.importing.model import Cell, Column, Foreign, Key, Table
from classroom.exercise.importing.dates import one_form, padded
from classroom.exercise.importing.postgres_checks import MOMENTS, Condition
from classroom.base.errors import Fault, library, shown
from classroom.sql.schema import literal, quoted

KINDS = {
    "smallint": "INTEGER",
    "integer": "INTEGER",
    "bigint": "INTEGER",
    "text": "TEXT",
    "character varying": "TEXT",
    "character": "TEXT",
}
# How many rows are looked up at once.
AT_ONCE = 100
# Of the fraction of a second, where a moment of the database has one; and the moments with so many.
DIGITS = 6
FRACTIONS = {
    "time without time zone": "to_char({}::interval, 'HH24:MI:SS.US')",
    "timestamp without time zone": "to_char({}, 'YYYY-MM-DD HH24:MI:SS.US')",
    "timestamp with time zone": "to_char({}, 'YYYY-MM-DD HH24:MI:SS.US') || '+00'",
}

TABLES = """SELECT c.oid, c.relname, c.relkind FROM pg_class c JOIN pg_namespace n ON n.oid = c.relnamespace
    WHERE c.relkind IN ('r', 'p', 'v', 'm', 'f') AND NOT c.relispartition AND pg_table_is_visible(c.oid)
    AND n.nspname NOT IN ('pg_catalog', 'information_schema') ORDER BY c.oid"""

# A database's own collation is that of the server's libc only where it has no other provider, of
# which older servers know nothing.
COLLATIONS = """SELECT k.oid, k.collisdeterministic, p.provider = 'c' AND p.name IN ('C', 'POSIX')
    FROM pg_collation k, pg_database d,
    LATERAL (SELECT CASE k.collprovider WHEN 'd' THEN coalesce(to_jsonb(d) ->> 'datlocprovider', 'c')
                                        ELSE k.collprovider::text END,
                    CASE k.collprovider WHEN 'd' THEN d.datcollate ELSE k.collcollate END) p (provider, name)
    WHERE d.datname = current_database()"""

COLUMNS = """SELECT a.attrelid, a.attnum, a.attname, format_type(a.atttypid, a.atttypmod), format_type(b.oid, NULL),
        a.attcollation, a.attnotnull OR t.typnotnull, a.attgenerated <> ''
    FROM pg_attribute a JOIN pg_type t ON t.oid = a.atttypid
    JOIN pg_type b ON b.oid = CASE t.typtype WHEN 'd' THEN t.typbasetype ELSE t.oid END
    WHERE a.attnum > 0 AND NOT a.attisdropped ORDER BY a.attrelid, a.attnum"""

# Of a key with INCLUDE only the first columns are the key.
UNIQUES = """SELECT i.indexrelid, i.indrelid, x.relname, i.indisprimary,
        i.indpred IS NOT NULL OR i.indexprs IS NOT NULL, k.attnum
    FROM pg_index i JOIN pg_class x ON x.oid = i.indexrelid
    CROSS JOIN unnest(i.indkey::int2[]) WITH ORDINALITY k (attnum, place)
    WHERE i.indisunique AND i.indisvalid AND k.place <= i.indnkeyatts
    ORDER BY i.indrelid, NOT i.indisprimary, x.relname COLLATE "C", k.place"""

FOREIGNS = """SELECT f.oid, f.conrelid, t.relnamespace::regnamespace::text, f.confrelid, t.relname, k.own, k.other
    FROM pg_constraint f JOIN pg_class t ON t.oid = f.confrelid
    CROSS JOIN unnest(f.conkey, f.confkey) WITH ORDINALITY k (own, other, place)
    WHERE f.contype = 'f' AND f.conparentid = 0 ORDER BY f.conrelid, f.conkey, f.oid, k.place"""

# Those of domains with the column that has the domain, which they name VALUE. PostgreSQL compares
# VALUE by the collation of the domain's base type, whatever that of the domain is.
CHECKS = """SELECT * FROM (SELECT conrelid, conname, NULL::name, NULL::oid, NULL::oid, convalidated,
            pg_get_expr(conbin, conrelid)
        FROM pg_constraint WHERE contype = 'c' AND conrelid <> 0
    UNION ALL SELECT a.attrelid, d.conname, a.attname, t.typcollation, b.typcollation, d.convalidated,
            pg_get_expr(d.conbin, 0)
        FROM pg_constraint d JOIN pg_type t ON t.oid = d.contypid JOIN pg_type b ON b.oid = t.typbasetype
        JOIN pg_attribute a ON a.atttypid = t.oid WHERE d.contype = 'c' AND NOT a.attisdropped)
    o (relation, name, of, texts, base_texts, valid, condition)
    ORDER BY relation, of IS NOT NULL, name COLLATE "C", of COLLATE "C" """

# What else rules the rows of a table.
OTHERS = """SELECT * FROM (SELECT conrelid, 'EXCLUDE ', conname FROM pg_constraint WHERE contype = 'x'
    UNION ALL SELECT tgrelid, 'the trigger ', tgname FROM pg_trigger WHERE NOT tgisinternal)
    o (relation, kind, name) ORDER BY relation, kind, name COLLATE "C" """


class Postgres:
    """A PostgreSQL database, within one transaction."""

    def __init__(self, database: str) -> None:
        psycopg = library("psycopg", "python3-psycopg")
        self.error: type[Exception] = psycopg.Error
        self.made: Callable[..., str] = psycopg.conninfo.make_conninfo
        self.left: list[str] = []
        self.bases: dict[tuple[str, str], str] = {}
        self.digits = 0
        with self.faults():
            is_name = not ("=" in database or "://" in database)
            words = psycopg.conninfo.make_conninfo(dbname=database) if is_name else database
            try:
                self.connection = psycopg.connect(words, client_encoding="UTF8", autocommit=True)
            except psycopg.OperationalError as fault:
                # The words may have a password in them.
                what = (
                    f"no file {shown(database)}, and no such database of PostgreSQL"
                    if is_name
                    else "no such database"
                )
                raise Fault(f"{what}: {shown(str(fault).strip().splitlines()[-1])}") from None
            for setting in (
                "BEGIN ISOLATION LEVEL REPEATABLE READ READ ONLY",
                "SET LOCAL DateStyle = ISO",
                "SET LOCAL TimeZone = 'UTC'",
                "SET LOCAL standard_conforming_strings = on",
            ):
                self.connection.execute(setting)

    @contextmanager
    def faults(self) -> Iterator[None]:
        try:
            yield
        except self.error as fault:
            raise Fault(
                shown((str(fault).strip().splitlines() or ["the database was closed"])[0])
            ) from None

    def fold(self, name: str) -> str:
        return name

    def ask(self, query: str, values: Sequence[Cell] = ()) -> list[tuple[Any, ...]]:
        with self.faults():
            # Without values a % in the query stands for itself.
            rows: list[tuple[Any, ...]] = self.connection.execute(
                query, list(values) or None
            ).fetchall()
            return rows

    def close(self) -> None:
        self.connection.close()

    def full(
        self, tables: Sequence[Table], numbers: Mapping[str, Sequence[int]]
    ) -> tuple[str, bytes | str]:
        with self.faults():
            return full.SCRIPT, full.of_postgres(self.connection, tables, numbers)

    def engine(self) -> Mapping[str, str]:
        """The two roles and the database that docs/SERVER.md makes, on the same server; passwords
        are in none."""
        info = self.connection.info
        place = {"host": info.host, "port": info.port, "dbname": "ratest_scratch"}
        return {
            key: self.made(**place, user=user)
            for key, user in (("engine", "ratest_loader"), ("engine_asker", "ratest_asker"))
        }

    def tables(self, names: Sequence[str]) -> dict[str, Table]:
        found: dict[int, Table] = {}
        self.left = []
        for number, name, kind in self.ask(TABLES):
            if kind in "rp":
                found[number] = Table(name, name)
            else:
                self.left.append(
                    f"{shown(name)}: left out: a {'foreign table' if kind == 'f' else 'view'}"
                )
        self.read_collations()
        of = self.read_columns(found, names)
        self.read_uniques(found, of)
        self.read_checks(found)
        foreigns: dict[int, Foreign] = {}
        for number, own, schema, target, other, column, to in self.ask(FOREIGNS):
            if own in found:
                if number not in foreigns:
                    name = other if target in found else f"{schema}.{other}"
                    foreigns[number] = Foreign([], name, [])
                    found[own].foreigns.append(foreigns[number])
                foreigns[number].columns.append(of[own][column])
                foreigns[number].to.append(of.get(target, {}).get(to, ""))
        for own, kind, name in self.ask(OTHERS):
            if own in found:
                found[own].notes.append(f"left out: {kind}{shown(name)}")
        return {table.name: table for table in found.values()}

    def read_collations(self) -> None:
        """What each collation shares with the order of bytes of UTF-8."""
        self.in_c = ORDER if self.ask("SHOW server_encoding")[0][0] == "UTF8" else EQUALITY
        self.collations = {
            number: NOTHING if not is_exact else self.in_c if is_c else EQUALITY
            for number, is_exact, is_c in self.ask(COLLATIONS)
        }

    def read_columns(
        self, found: Mapping[int, Table], names: Sequence[str]
    ) -> dict[int, dict[int, str]]:
        """The names of the columns by their numbers, of each table."""
        self.sides: dict[int, dict[str, Side]] = {}
        of: dict[int, dict[int, str]] = {}
        for own, number, name, declared, base, collation, not_null, is_generated in self.ask(
            COLUMNS
        ):
            if own not in found:
                continue
            table = found[own]
            of.setdefault(own, {})[number] = name
            column = Column(name, name, KINDS.get(base), not_null)
            self.bases[table.name, name] = base
            if is_generated:
                column.why = "a generated column"
            elif column.kind is None:
                column.why = f"the type {shown(declared)} is not read"
                if not names or table.name in names:
                    self.read_values(table, column, declared, base)
            table.columns.append(column)
            self.sides.setdefault(own, {})[name] = Side(
                name,
                kind=column.kind,
                type="bpchar" if base == "character" else base,
                texts=self.collations.get(collation),
            )
        for table in found.values():
            for column in table.columns:
                if self.bases[table.name, column.name] in FRACTIONS:
                    column.digits = self.digits
        return of

    def read_values(self, table: Table, column: Column, declared: str, base: str) -> None:
        """Carries over a column of moments, booleans or numbers where all of its values are
        such."""
        name, rows = quoted(column.name), quoted(table.name)
        is_good, lacks = False, ""
        kind, note = "INTEGER", "whole numbers"
        if base == "boolean":
            is_good, note = True, "0 and 1"
        elif base == "numeric":
            lacks = "are not whole numbers of 64 bits"
            # What is no number or without an end stands before or behind all others.
            ((stray,),) = self.ask(
                f"SELECT count(*) FROM {rows} WHERE {name} NOT BETWEEN -9223372036854775808 AND"
                f" 9223372036854775807 OR {name} <> trunc({name})"
            )
            is_good = stray == 0
        elif base in MOMENTS:
            kind, note, lacks = (
                "TEXT",
                "texts of ISO 8601, which compare by their bytes",
                "have no one form of ISO 8601",
            )
            texts = [
                text
                for text, in self.ask(
                    f"SELECT DISTINCT {name}::text FROM {rows} WHERE {name} IS NOT NULL"
                )
            ]
            whole = [padded(text, DIGITS) for text in texts]
            is_good = one_form([text or "" for text in whole])
            if is_good and any("." in text for text in texts):
                # One form for all columns, so that they compare with one another too.
                self.digits = DIGITS
        if is_good:
            column.kind, column.why, column.note = (
                kind,
                "",
                f"{shown(declared)} becomes {kind}: {note}",
            )
        elif lacks:
            column.why += f", since its values {lacks}"

    def read_checks(self, found: Mapping[int, Table]) -> None:
        for own, name, of, *collations, valid, condition in self.ask(CHECKS):
            if own not in found:
                continue
            sides = self.sides.get(own, {})
            if of is not None:
                name = f"{name} of {of}"
                shared = [
                    self.collations[number] for number in collations if number in self.collations
                ]
                sides = {"VALUE": replace(sides[of], texts=min(shared, default=None))}
            check = Condition(condition, sides, self.in_c, self.digits).check(shown(name))
            if not valid:
                check.why = "is NOT VALID"
            found[own].checks.append(check)

    def read_uniques(self, found: Mapping[int, Table], of: Mapping[int, Mapping[int, str]]) -> None:
        indexes: dict[int, Key] = {}
        for number, own, index, is_primary, is_odd, column in self.ask(UNIQUES):
            if own in found and is_odd:
                note = (
                    f"left out: the unique index {shown(index)}, which is partial or on an"
                    " expression"
                )
                if note not in found[own].notes:
                    found[own].notes.append(note)
            elif own in found:
                if number not in indexes:
                    indexes[number] = Key([], is_primary)
                    found[own].keys.append(indexes[number])
                if of[own][column] not in indexes[number].columns:
                    indexes[number].columns.append(of[own][column])
        for table in found.values():
            texts = {
                column.name
                for column in table.columns
                if KINDS.get(self.bases[table.name, column.name]) == "TEXT"
            }
            table.order = [
                quoted(name) + (' COLLATE "C"' if name in texts else "")
                for key in table.keys
                if key.primary
                for name in key.columns
            ] or ["tableoid", "ctid"]

    def look(self, table: Table) -> None:
        if self.ask(
            "SELECT 1 FROM pg_inherits h JOIN pg_class c ON c.oid = h.inhparent "
            f"WHERE c.relkind = 'r' AND c.oid = {literal(quoted(table.name))}::regclass"
        ):
            raise Fault(
                f"{shown(table.name)}: rows of other tables, which inherit from it, stand in it too"
            )
        ((table.count,),) = self.ask(f"SELECT count(*) FROM {quoted(table.name)}")

    def first(self, table: Table, count: int) -> dict[int, tuple[Cell, ...]]:
        return self.rows(table, "n <= %s", [count])

    def matching(
        self, table: Table, places: Sequence[int], values: Sequence[tuple[Cell, ...]]
    ) -> dict[int, tuple[Cell, ...]]:
        found: dict[int, tuple[Cell, ...]] = {}
        one = f"({', '.join('%s' for _ in places)})"
        kinds = ["bigint" if table.columns[place].kind == "INTEGER" else "text" for place in places]
        cells = ", ".join(
            f'c{place}::{kind} COLLATE "C"' if kind == "text" else f"c{place}"
            for place, kind in zip(places, kinds)
        )
        for start in range(0, len(values), AT_ONCE):
            part = values[start : start + AT_ONCE]
            names = ", ".join(f"v{at}" for at in range(len(places)))
            typed = ", ".join(f"v{at}::{kind}" for at, kind in enumerate(kinds))
            found.update(
                self.rows(
                    table,
                    (
                        f"({cells}) IN (SELECT {typed} FROM (VALUES {', '.join(one for _ in part)})"
                        f" v ({names}))"
                    ),
                    [cell for row in part for cell in row],
                )
            )
        return found

    def rows(
        self, table: Table, condition: str, values: Sequence[Cell]
    ) -> dict[int, tuple[Cell, ...]]:
        cells = [f"{self.cell(table, column)} AS c{at}" for at, column in enumerate(table.columns)]
        inner = ", ".join(
            [f"row_number() OVER (ORDER BY {', '.join(table.order)}) AS n", *cells]
        ).replace("%", "%%")
        try:
            answer = self.ask(
                (
                    f"SELECT n, {', '.join(f'c{at}' for at in range(len(cells)))} FROM (SELECT"
                    f" {inner} FROM {quoted(table.name).replace('%', '%%')}) AS x WHERE"
                    f" {condition} ORDER BY n"
                ),
                values,
            )
        except UnicodeDecodeError:
            raise Fault(f"{shown(table.name)}: a text that is not UTF-8") from None
        return {number: tuple(row) for number, *row in answer}

    def cell(self, table: Table, column: Column) -> str:
        """The value as it is exported. Of a CHAR(n) the cast drops the blanks at its end, which
        comparisons don't see either."""
        name, base = quoted(column.name), self.bases[table.name, column.name]
        if base == "boolean":
            return f"{name}::integer"
        if column.kind == "INTEGER":
            return f"{name}::bigint"
        return FRACTIONS[base].format(name) if column.digits else f"{name}::text"
