"""Random texts of the relational algebra, and the SQL of SQLite that says the same."""
from __future__ import annotations

from dataclasses import dataclass
from typing import Callable

from .draw import NUMBERS, SIGNS, TEXTS, Draw
from .model import cell
from .query import Kind, quoted

Columns = tuple[tuple[str, Kind], ...]
MOST_COLUMNS = 6


@dataclass(frozen=True)
class Relation:
    text: str
    sql: str
    columns: Columns

    @property
    def names(self) -> list[str]:
        return [name for name, _ in self.columns]


def listed(names: list[str], source: str = "") -> str:
    return ", ".join(source + name for name in names)


def pairs(names: list[str], left: str, right: str, sign: str = "=") -> str:
    return " AND ".join(f"{left}.{name} {sign} {right}.{name}" for name in names) or "1"


class Algebra:
    """Columns are named after their kinds, i0 or s0 say, so that columns of one name can always be
    compared."""

    def __init__(self, draw: Draw) -> None:
        self.draw = draw

    def relation(self, depth: int) -> Relation:
        if depth == 0:
            return self.table()
        forms: list[Callable[[int], Relation]] = [
            self.select,
            self.project,
            self.joined,
            self.joined,
            self.set_operation,
            self.divide,
        ]
        return self.draw.pick(forms)(depth - 1)

    def table(self) -> Relation:
        table = self.draw.pick(self.draw.tables)
        names: list[str] = []
        for column in table.columns:
            letter = "i" if column.kind == "int" else "s"
            names.append(
                self.draw.pick(
                    [name for name in (f"{letter}{at}" for at in range(4)) if name not in names]
                )
            )
        columns = tuple((name, column.kind) for name, column in zip(names, table.columns))
        renamed = ", ".join(
            f"{quoted(column.name)} AS {name}" for name, column in zip(names, table.columns)
        )
        return Relation(
            f"rename({quoted(table.name)}, ({listed(names)}))",
            f"SELECT DISTINCT {renamed} FROM {quoted(table.name)}",
            columns,
        )

    def test(self, of: Relation) -> str:
        name, kind = self.draw.pick(of.columns)
        if self.draw.chance(0.2):
            return f"{name} IS {'NOT ' if self.draw.chance(0.5) else ''}NULL"
        others = [other for other, its in of.columns if its == kind and other != name]
        constant = cell(self.draw.pick(NUMBERS) if kind == "int" else self.draw.pick(TEXTS))
        side = self.draw.pick(others) if others and self.draw.chance(0.5) else constant
        return f"{name} {self.draw.pick(SIGNS)} {side}"

    def select(self, depth: int) -> Relation:
        of = self.relation(depth)
        tests = " AND ".join(self.test(of) for _ in range(self.draw.random.randint(1, 2)))
        return Relation(
            f"select({of.text}, {tests})", f"SELECT * FROM ({of.sql}) WHERE {tests}", of.columns
        )

    def project(self, depth: int) -> Relation:
        of = self.relation(depth)
        columns = tuple(self.draw.some(of.columns, 3))
        names = listed([name for name, _ in columns])
        return Relation(
            f"project({of.text}, ({names}))", f"SELECT DISTINCT {names} FROM ({of.sql})", columns
        )

    def joined(self, depth: int) -> Relation:
        left, right = self.relation(depth), self.relation(self.draw.pick((0, depth)))
        common = [name for name in left.names if name in right.names]
        further = tuple(column for column in right.columns if column[0] not in common)
        words = ["semi", "anti"]
        if len(left.columns) + len(further) <= MOST_COLUMNS:
            words += ["join", "leftjoin"] + ([] if common else ["cross"])
        word = self.draw.pick(words)
        text = f"{word}({left.text}, {right.text})"
        on = pairs(common, "l", "r")
        if word in ("semi", "anti"):
            no = "NOT " if word == "anti" else ""
            return Relation(
                text,
                (
                    f"SELECT * FROM ({left.sql}) AS l WHERE {no}EXISTS (SELECT 1 FROM ({right.sql})"
                    f" AS r WHERE {on})"
                ),
                left.columns,
            )
        kept = listed(left.names, "l.") + "".join(f", r.{name}" for name, _ in further)
        join = "LEFT JOIN" if word == "leftjoin" else "JOIN"
        return Relation(
            text,
            f"SELECT {kept} FROM ({left.sql}) AS l {join} ({right.sql}) AS r ON {on}",
            left.columns + further,
        )

    def set_operation(self, depth: int) -> Relation:
        left = self.relation(depth)
        right = self.relation(self.draw.pick((0, depth)))
        # Both sides get the same kinds: the columns that the kinds of the shorter one have in
        # common, in order.
        fitting = common_kinds(left, right)
        if not fitting:
            return left
        word = self.draw.pick(("UNION", "EXCEPT", "INTERSECT"))
        sides = [
            projected(left, [pair[0] for pair in fitting]),
            projected(right, [pair[1] for pair in fitting]),
        ]
        return Relation(
            f"{word.lower()}({sides[0].text}, {sides[1].text})",
            f"SELECT * FROM ({sides[0].sql}) {word} SELECT * FROM ({sides[1].sql})",
            sides[0].columns,
        )

    def divide(self, depth: int) -> Relation:
        of = self.relation(depth)
        if len(of.columns) < 2:
            return of
        by = tuple(self.draw.some(of.columns, len(of.columns) - 1))
        further = tuple(column for column in of.columns if column not in by)
        names = [name for name, _ in by]
        rest = [name for name, _ in further]
        divisor = projected(self.relation(0) if self.draw.chance(0.5) else of, None)
        if not set(names) <= set(divisor.names):
            divisor = of
        divisor = projected(divisor, [column for column in divisor.columns if column[0] in names])
        sql = (
            f"SELECT DISTINCT {listed(rest)} FROM ({of.sql}) AS x WHERE NOT EXISTS (SELECT 1 FROM"
            f" ({divisor.sql}) AS y WHERE NOT EXISTS (SELECT 1 FROM ({of.sql}) AS z WHERE"
            f" {pairs(rest, 'z', 'x', 'IS')} AND {pairs(names, 'z', 'y', 'IS')}))"
        )
        return Relation(f"divide({of.text}, {divisor.text})", sql, further)


def common_kinds(
    left: Relation, right: Relation
) -> list[tuple[tuple[str, Kind], tuple[str, Kind]]]:
    found = []
    rest = list(right.columns)
    for column in left.columns:
        fitting = next((other for other in rest if other[1] == column[1]), None)
        if fitting:
            rest.remove(fitting)
            found.append((column, fitting))
    return found


def projected(of: Relation, columns: list[tuple[str, Kind]] | None) -> Relation:
    if columns is None:
        return of
    names = listed([name for name, _ in columns])
    return Relation(
        f"project({of.text}, ({names}))", f"SELECT DISTINCT {names} FROM ({of.sql})", tuple(columns)
    )
