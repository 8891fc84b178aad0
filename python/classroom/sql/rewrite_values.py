"""Conditions and values of PostgreSQL in SQLite's words."""
from __future__ import annotations

import re
from datetime import date, datetime
from typing import Any

from sqlglot import exp

from classroom.sql.rewrite_parts import (
    QUERIES,
    Cannot,
    Columns,
    Names,
    inner,
    inside,
    is_date,
    operand,
    sql,
    value,
    width,
)
from classroom.sql.tree import COMPARISONS, Node, bare

SIGNS = {exp.EQ: "=", exp.NEQ: "<>", exp.LT: "<", exp.LTE: "<=", exp.GT: ">", exp.GTE: ">="}
INTEGERS = frozenset(("INT", "BIGINT", "SMALLINT"))
TEXTS = frozenset(("TEXT", "VARCHAR"))
NUMBERS = frozenset(("DECIMAL", "DOUBLE", "FLOAT"))
BOOLEANS = (*COMPARISONS, exp.And, exp.Or, exp.Not, exp.Is, exp.In, exp.Between, exp.Boolean)
SUMS = (exp.Add, exp.Sub, exp.Mul, exp.Div, exp.Mod)
PARTS = {
    "YEAR": "%Y",
    "MONTH": "%m",
    "DAY": "%d",
    "HOUR": "%H",
    "MINUTE": "%M",
    "DOW": "%w",
    "DOY": "%j",
    "EPOCH": "%s",
}
MOMENTS = ("DATE", "TIMESTAMP", "DATETIME")


def quantified(node: Any, names: Names) -> Node | None:
    """A comparison with ANY, SOME or ALL; None of one that has none."""
    left, right = node.this, node.expression
    if isinstance(right, (exp.Any, exp.All)):
        is_any, rows = isinstance(right, exp.Any), right.this
    elif isinstance(right, exp.Anonymous) and str(right.this).upper() in ("ANY", "ALL", "SOME"):
        if len(right.expressions) != 1:
            raise Cannot("ANY of several")
        is_any, rows = str(right.this).upper() != "ALL", right.expressions[0]
    else:
        return None
    sign, rows = SIGNS[type(node)], inner(rows)
    if isinstance(rows, exp.Array):
        if not rows.expressions:
            return value("0" if is_any else "1")
        word = " OR " if is_any else " AND "
        return inside(
            word.join(f"{operand(left)} {sign} {operand(one)}" for one in rows.expressions)
        )
    if not isinstance(rows, QUERIES) or isinstance(inner(left), exp.Tuple):
        raise Cannot("ANY of an array")
    if width(rows) not in (None, 1):
        raise Cannot("ANY of several columns")
    text, given = sql(rows), operand(left)
    if is_any and sign == "=":
        return inside(f"{given} IN ({text})")
    if not is_any and sign == "<>":
        return inside(f"NOT {given} IN ({text})")
    name = names.fresh("v")
    held = f"(SELECT NULL AS {name} WHERE 0 UNION ALL SELECT * FROM ({text}))"
    least, most, filled, every = (
        f"(SELECT {found} FROM {held})"
        for found in (f"MIN({name})", f"MAX({name})", f"COUNT({name})", "COUNT(*)")
    )
    either = f"{given} <> {least} OR {given} <> {most}"
    if is_any:
        decides = {
            ">": f"{given} > {least}",
            ">=": f"{given} >= {least}",
            "<": f"{given} < {most}",
            "<=": f"{given} <= {most}",
            "<>": either,
        }[sign]
    else:
        decides = {
            ">": f"{given} <= {most}",
            ">=": f"{given} < {most}",
            "<": f"{given} >= {least}",
            "<=": f"{given} > {least}",
            "=": either,
        }[sign]
    then, otherwise = (1, 0) if is_any else (0, 1)
    return value(
        f"CASE WHEN {every} = 0 THEN {otherwise} WHEN {decides} THEN {then}"
        f" WHEN {given} IS NULL OR {every} > {filled} THEN NULL ELSE {otherwise} END"
    )


def symmetric(node: Any) -> Node | None:
    """BETWEEN SYMMETRIC, of which `marked` left a NOT before the first value."""
    first = node.args["low"]
    if not isinstance(first, exp.Not):
        return None
    one, low, high = map(operand, (node.this, first.this, node.args["high"]))
    return inside(f"{one} BETWEEN {low} AND {high} OR {one} BETWEEN {high} AND {low}")


def without_case(node: Any) -> Node:
    """ILIKE, whose pattern has to be a text of ASCII: SQLite knows small letters of no other."""
    pattern = bare(node.expression)
    is_text = isinstance(pattern, exp.Literal) and pattern.is_string
    if isinstance(node.parent, exp.Escape) or not is_text or not pattern.name.isascii():
        raise Cannot("ILIKE of no plain pattern")
    if pattern.name.replace("\\\\", "").endswith("\\"):
        raise Cannot("a pattern that ends within a sign")
    return inside(f"LOWER({sql(node.this)}) LIKE LOWER({sql(pattern)}) ESCAPE '\\'")


class Kinds:
    """Of which kind values are, as far as that is certain."""

    def __init__(self, columns: Columns, given: set[str]) -> None:
        """`given` are names that the query gives itself."""
        self.declared: dict[str, set[str]] = {}
        for of in columns.values():
            for name, kind in of.items():
                self.declared.setdefault(name, set()).add(kind_of_type(kind))
        for name in given:
            self.declared.pop(name, None)

    def kind(self, node: Any) -> str:
        """integer, decimal, real, text, boolean, date or moment; "" where it isn't known."""
        node = bare(node)
        if isinstance(node, exp.Literal):
            if node.is_string:
                return "text"
            return "integer" if str(node.this).isdigit() else "decimal"
        if isinstance(node, exp.Column):
            found = self.declared.get(node.name.lower(), set())
            return next(iter(found)) if len(found) == 1 else ""
        if isinstance(node, BOOLEANS):
            return "boolean"
        if isinstance(node, (exp.Count, exp.Length)):
            return "integer"
        if isinstance(node, (exp.Neg, exp.Min, exp.Max, exp.Abs)):
            return self.kind(node.this)
        if isinstance(node, exp.Sum):
            return "integer" if self.kind(node.this) == "integer" else ""
        if isinstance(node, exp.Avg):
            return "decimal" if self.kind(node.this) == "integer" else ""
        if isinstance(node, SUMS):
            kinds = self.kind(node.this), self.kind(node.expression)
            if kinds == ("integer", "integer"):
                return "integer"
            if isinstance(node, exp.Div) and kinds == ("integer", "decimal"):
                return "decimal"
        if isinstance(node, (exp.Lower, exp.Upper, exp.DPipe, exp.Trim, exp.Substring)):
            return "text"
        if is_date(node):
            return "date"
        return ""

    def cast(self, node: Any) -> Node:
        to, kind = node.args["to"], self.kind(node.this)
        name, given = str(to.this.name), sql(node.this)
        text = bare(node.this).name if isinstance(bare(node.this), exp.Literal) else ""
        if to.expressions:
            raise Cannot("a type with a length")
        is_number = bool(re.fullmatch(r"[-+]?\d{1,15}", text))
        if name in INTEGERS:
            if kind in ("integer", "boolean") or kind == "text" and is_number:
                return value(f"CAST({given} AS INTEGER)")
            if kind == "decimal":
                return value(f"CAST(ROUND({given}) AS INTEGER)")
        elif name in TEXTS and kind in ("integer", "text", "date"):
            return value(f"CAST({given} AS TEXT)")
        elif name in NUMBERS:
            if kind in ("integer", "decimal", "real") or kind == "text" and is_number:
                return value(f"CAST({given} AS REAL)")
        elif name == "DATE":
            if is_day(text) or kind in ("date", "moment") or not text and kind == "text":
                return value(f"DATE({given})")
        elif name == "TIMESTAMP" and is_moment(text):
            return value(given)
        raise Cannot(f"a cast to {name}")

    def extracted(self, part: str, of: Any) -> Node:
        """A part of a day or a moment."""
        of = bare(of)
        if isinstance(of, exp.Cast) and str(of.args["to"].this.name) in MOMENTS:
            is_of_day = str(of.args["to"].this.name) == "DATE"
            given = sql(of.this)
            text = bare(of.this).name if isinstance(bare(of.this), exp.Literal) else ""
            if text and not is_day(text) and not is_moment(text):
                raise Cannot("no date")
            if not text and self.kind(of.this) not in ("text", "date", "moment"):
                raise Cannot("a part of no date")
        elif self.kind(of) in ("date", "moment"):
            is_of_day, given = self.kind(of) == "date", sql(of)
        else:
            raise Cannot("a part of no date")
        given = f"DATE({given})" if is_of_day else given
        if part == "QUARTER":
            return inside(f"(CAST(STRFTIME('%m', {given}) AS INTEGER) + 2) / 3")
        if part == "SECOND":
            return value(f"CAST(STRFTIME('%f', {given}) AS REAL)")
        if part not in PARTS:
            raise Cannot(part)
        return value(f"CAST(STRFTIME('{PARTS[part]}', {given}) AS INTEGER)")


def kind_of_type(declared: str) -> str:
    """The kind of a declared type."""
    word = declared.split("(")[0].strip().upper()
    if word in ("INTEGER", "INT", "BIGINT", "SMALLINT"):
        return "integer"
    if word in ("REAL", "FLOAT", "DOUBLE", "DOUBLE PRECISION"):
        return "real"
    if word in ("TEXT", "VARCHAR", "CHARACTER VARYING"):
        return "text"
    return {"DATE": "date", "TIMESTAMP": "moment", "DATETIME": "moment"}.get(word, "")


def is_day(text: str) -> bool:
    try:
        return len(text) == 10 and bool(date.fromisoformat(text))
    except ValueError:
        return False


def is_moment(text: str) -> bool:
    try:
        return len(text) == 19 and bool(datetime.strptime(text, "%Y-%m-%d %H:%M:%S"))
    except ValueError:
        return False


def difference(node: Any) -> Node | None:
    """The days between two dates; other arithmetic with dates has no rewriting."""
    count = is_date(node.this) + is_date(node.expression)
    if not count:
        return None
    if count < 2 or not isinstance(node, exp.Sub):
        raise Cannot("arithmetic with dates")
    return value(
        f"CAST(JULIANDAY({sql(node.this)}) - JULIANDAY({sql(node.expression)}) AS INTEGER)"
    )


def function(node: Any) -> Node | None:
    """A call of a function that SQLite has by another name, or not at all."""
    if isinstance(node, (exp.Greatest, exp.Least)):
        word = "MAX" if isinstance(node, exp.Greatest) else "MIN"
        every = [sql(node.this), *map(sql, node.expressions)]
        # SQLite's own are NULL where one of them is.
        some = [f"COALESCE({', '.join(every[at:] + every[:at])})" for at in range(len(every))]
        if len(some) == 1:
            return inside(every[0])
        return exp.Anonymous(this=word, expressions=[value(one) for one in some])
    if isinstance(node, exp.Concat):
        return inside(" || ".join(f"COALESCE({sql(one)}, '')" for one in node.expressions))
    if isinstance(node, exp.StrPosition):
        if node.args.get("position"):
            raise Cannot("a place from which is looked")
        return value(f"INSTR({sql(node.this)}, {sql(node.args['substr'])})")
    if isinstance(node, exp.LogicalOr):
        return value(f"MAX({sql(node.this)})")
    if isinstance(node, exp.Substring):
        start = bare(node.args["start"]) if node.args.get("start") else None
        if not isinstance(start, exp.Literal) or start.is_string or int(start.this) < 1:
            raise Cannot("a part of a text from an unknown place")
        length = node.args.get("length")
        if length and isinstance(bare(length), exp.Neg):
            raise Cannot("a part of a text of less than nothing")
        more = f", {sql(length)}" if length else ""
        return value(f"SUBSTR({sql(node.this)}, {sql(start)}{more})")
    if isinstance(node, exp.Anonymous):
        return by_name(str(node.this).upper(), [sql(one) for one in node.expressions])
    return None


def by_name(name: str, given: list[str]) -> Node | None:
    if len(given) == 1:
        if name in ("CHAR_LENGTH", "CHARACTER_LENGTH"):
            return value(f"LENGTH({given[0]})")
        if name in ("BOOL_AND", "EVERY", "BOOL_OR"):
            return value(f"{'MAX' if name == 'BOOL_OR' else 'MIN'}({given[0]})")
    if len(given) == 2:
        text, count = given[0], f"({given[1]})"
        if name == "STRPOS":
            return value(f"INSTR({given[0]}, {given[1]})")
        if name == "LEFT":
            return value(
                f"SUBSTR({text}, 1, CASE WHEN {count} >= 0 THEN {count}"
                f" ELSE MAX(LENGTH({text}) + {count}, 0) END)"
            )
        if name == "RIGHT":
            return value(
                f"CASE WHEN {count} > 0 THEN SUBSTR({text}, -{count}) WHEN {count} = 0"
                f" THEN SUBSTR({text}, 1, 0) ELSE SUBSTR({text}, 1 - {count}) END"
            )
    return None
