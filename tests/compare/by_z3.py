"""Least sizes against the solver Z3, over an encoding of its own: each query is evaluated once,
with a formula beside each row of an answer that says on which choices of rows it is there (the
provenance of the paper)."""
from __future__ import annotations

from dataclasses import dataclass
from typing import Any, Optional, Union

from .by_postgres import kept
from .draw import Limits
from .model import Case, Row, Table, Value, sort_key
from .program import Answer, Passed, folder_of, ratest
from .query import (
    Arith,
    Base,
    Between,
    Col,
    Compare,
    Condition,
    Const,
    Exists,
    Expression,
    InList,
    InQuery,
    IsNull,
    Joined,
    Negative,
    Not,
    Query,
    Select,
    columns_of,
)

try:
    import z3  # type: ignore[import]
except ImportError:
    z3 = None


def lack() -> Optional[str]:
    """What to tell where the solver is not there."""
    return "Z3 is missing: apt-get install python3-z3" if z3 is None else None


# What is known already is a bool.
Formula = Union[bool, Any]
# Whether a condition is true and whether it is false; else it is unknown.
Truth = tuple[Formula, Formula]
# By the names of sources, by the names of columns.
Scope = dict[str, dict[str, Value]]

SECONDS = 20
# So many joined rows of one SELECT are looked at.
MOST_JOINED = 40_000


def both(formulas: list[Formula]) -> Formula:
    if any(formula is False for formula in formulas):
        return False
    open_ones = [formula for formula in formulas if formula is not True]
    return True if not open_ones else open_ones[0] if len(open_ones) == 1 else z3.And(open_ones)


def one_of(formulas: list[Formula]) -> Formula:
    return negated(both([negated(formula) for formula in formulas]))


def negated(formula: Formula) -> Formula:
    return not formula if isinstance(formula, bool) else z3.Not(formula)


def compared(sign: str, left: Value, right: Value) -> Truth:
    if left is None or right is None:
        return False, False
    one, other = sort_key((left,)), sort_key((right,))
    found = {
        "=": one == other,
        "<>": one != other,
        "<": one < other,
        "<=": one <= other,
        ">": one > other,
        ">=": one >= other,
    }[sign]
    return found, not found


def opposite(truth: Truth, is_negated: bool = True) -> Truth:
    return (truth[1], truth[0]) if is_negated else truth


def every(truths: list[Truth]) -> Truth:
    return both([yes for yes, _ in truths]), one_of([no for _, no in truths])


def some(truths: list[Truth]) -> Truth:
    return one_of([yes for yes, _ in truths]), both([no for _, no in truths])


def value(expression: Expression, scopes: list[Scope]) -> Value:
    if isinstance(expression, Const):
        return expression.value
    if isinstance(expression, Col):
        scope = next(scope for scope in scopes if expression.source in scope)
        return scope[str(expression.source)][expression.name]
    if isinstance(expression, Negative):
        of = value(expression.of, scopes)
        return None if of is None else -int(of)
    left, right = value(expression.left, scopes), value(expression.right, scopes)
    if left is None or right is None:
        return None
    assert isinstance(expression, Arith)
    one, other = int(left), int(right)
    return (
        one + other
        if expression.sign == "+"
        else one - other
        if expression.sign == "-"
        else one * other
    )


class Provenance:
    def __init__(self, case: Case) -> None:
        self.case = case
        self.kept = {place: z3.Bool(f"{place[1]} of {place[0]}") for place in case.places()}
        self.tables = {table.name: table for table in case.tables}

    def answer(self, query: Query, scopes: list[Scope]) -> dict[Row, Formula]:
        if isinstance(query, Select):
            return self.select(query, scopes)
        left, right = self.answer(query.left, scopes), self.answer(query.right, scopes)
        if query.word == "UNION":
            return {
                row: one_of([left.get(row, False), right.get(row, False)])
                for row in {**left, **right}
            }
        is_except = query.word == "EXCEPT"
        return {
            row: both(
                [formula, negated(right.get(row, False)) if is_except else right.get(row, False)]
            )
            for row, formula in left.items()
        }

    def base(self, base: Base, scopes: list[Scope]) -> tuple[list[str], dict[Row, Formula]]:
        if not isinstance(base.of, str):
            return [name for name, _ in columns_of(base.of)], self.answer(base.of, scopes)
        found: dict[Row, list[Formula]] = {}
        for at, row in enumerate(self.case.rows[base.of]):
            found.setdefault(row, []).append(self.kept[base.of, at])
        names = [column.name for column in self.tables[base.of].columns]
        return names, {row: one_of(formulas) for row, formulas in found.items()}

    def select(self, select: Select, scopes: list[Scope]) -> dict[Row, Formula]:
        # Joined rows so far: the cells of all sources in order, the scope that they make, and the
        # formula.
        joined: list[tuple[Row, Scope, Formula]] = [((), {}, True)]
        for source in select.sources:
            own: list[str] = []
            for base, condition in [(source.head, None)] + [
                (join.base, join.on) for join in source.joins
            ]:
                own.append(base.alias)
                joined = self.widened(joined, base, condition, own, scopes)
        found: dict[Row, list[Formula]] = {}
        for row, scope, formula in joined:
            around = [scope] + scopes
            if select.where is not None:
                formula = both([formula, self.truth(select.where, around)[0]])
            if formula is not False:
                cells = (
                    row
                    if select.items is None
                    else tuple(value(item, around) for item in select.items)
                )
                found.setdefault(cells, []).append(formula)
        return {row: one_of(formulas) for row, formulas in found.items()}

    def widened(
        self,
        joined: list[tuple[Row, Scope, Formula]],
        base: Base,
        condition: Optional[Condition],
        own: list[str],
        scopes: list[Scope],
    ) -> list[tuple[Row, Scope, Formula]]:
        names, rows = self.base(base, scopes)
        if len(joined) * len(rows) > MOST_JOINED:
            raise Passed("too many joined rows")
        found = []
        for row, scope, formula in joined:
            for other, its in rows.items():
                wider = {**scope, base.alias: dict(zip(names, other))}
                whole = both([formula, its])
                if condition is not None:
                    # ON sees the sources of its own item of FROM.
                    visible = {alias: wider[alias] for alias in own}
                    whole = both([whole, self.truth(condition, [visible] + scopes)[0]])
                if whole is not False:
                    found.append((row + other, wider, whole))
        return found

    def truth(self, condition: Condition, scopes: list[Scope]) -> Truth:
        if isinstance(condition, Compare):
            return compared(
                condition.sign, value(condition.left, scopes), value(condition.right, scopes)
            )
        if isinstance(condition, Joined):
            parts = [self.truth(part, scopes) for part in condition.parts]
            return every(parts) if condition.word == "AND" else some(parts)
        if isinstance(condition, Not):
            return opposite(self.truth(condition.of, scopes))
        if isinstance(condition, Exists):
            found = one_of(list(self.answer(condition.query, scopes).values()))
            return found, negated(found)
        of = value(condition.of, scopes)
        if isinstance(condition, IsNull):
            return opposite((of is None, of is not None), condition.negated)
        if isinstance(condition, Between):
            low, high = value(condition.low, scopes), value(condition.high, scopes)
            return opposite(
                every([compared(">=", of, low), compared("<=", of, high)]), condition.negated
            )
        if isinstance(condition, InList):
            members = [compared("=", of, value(member, scopes)) for member in condition.members]
            return opposite(some(members), condition.negated)
        assert isinstance(condition, InQuery)
        rows = self.answer(condition.query, scopes)
        truths = []
        for row, formula in rows.items():
            yes, no = compared("=", of, row[0])
            truths.append((both([formula, yes]), one_of([negated(formula), no])))
        return opposite(some(truths), condition.negated)

    def law(self) -> list[Formula]:
        found: list[Formula] = []
        for table in self.case.tables:
            rows = self.case.rows[table.name]
            for at, row in enumerate(rows):
                if self.is_ruled_out(table, row):
                    found.append(negated(self.kept[table.name, at]))
            for key in table.keys():
                found += self.key(table, key)
            for foreign in table.foreign_keys:
                found += self.foreign_key(
                    table, foreign.columns, self.tables[foreign.table], foreign.referenced
                )
        return found

    def is_ruled_out(self, table: Table, row: Row) -> bool:
        named = {column.name: cell for column, cell in zip(table.columns, row)}
        full = [column.name for column in table.columns if column.not_null] + list(
            table.primary_key
        )
        return any(named[name] is None for name in full) or any(
            self.truth(check, [{"": named}])[1] is True for check in table.checks
        )

    def cells(self, table: Table, at: int, names: tuple[str, ...]) -> Row:
        columns = [column.name for column in table.columns]
        return tuple(self.case.rows[table.name][at][columns.index(name)] for name in names)

    def key(self, table: Table, names: tuple[str, ...]) -> list[Formula]:
        found: dict[Row, list[Formula]] = {}
        for at in range(len(self.case.rows[table.name])):
            cells = self.cells(table, at, names)
            if None not in cells:
                found.setdefault(cells, []).append(self.kept[table.name, at])
        return [z3.AtMost(*rows, 1) for rows in found.values() if len(rows) > 1]

    def foreign_key(
        self, table: Table, names: tuple[str, ...], other: Table, referenced: tuple[str, ...]
    ) -> list[Formula]:
        found = []
        targets = [
            self.cells(other, at, referenced) for at in range(len(self.case.rows[other.name]))
        ]
        for at in range(len(self.case.rows[table.name])):
            cells = self.cells(table, at, names)
            if None not in cells:
                found.append(
                    one_of(
                        [negated(self.kept[table.name, at])]
                        + [
                            self.kept[other.name, place]
                            for place, target in enumerate(targets)
                            if target == cells
                        ]
                    )
                )
        return found


@dataclass(frozen=True)
class ByZ3:
    name: str = "compare_z3"
    limits: Limits = Limits(depth=1, sources=2, large=1, large_rows=40)

    def difference(self, case: Case) -> Optional[str]:
        with folder_of(case) as folder:
            answer = ratest(folder, ["--work", "32000000"])
        if answer.status not in (0, 1):
            raise Passed("above a limit" if answer.status in (3, 5) else "no verdict in time")
        told = self.told(case, answer)
        return told and f"{told}\n{answer.out.decode()}"

    def told(self, case: Case, answer: Answer) -> Optional[str]:
        provenance = Provenance(case)
        first, second = provenance.answer(case.first, []), provenance.answer(case.second, [])
        differ = one_of(
            [
                formula
                for row in {**first, **second}
                for formula in (
                    both([first.get(row, False), negated(second.get(row, False))]),
                    both([second.get(row, False), negated(first.get(row, False))]),
                )
            ]
        )
        solver = z3.Solver()
        solver.set("timeout", SECONDS * 1000)
        solver.add(differ, *provenance.law())
        if answer.status == 0:
            return "there is a counterexample" if holds(solver) else None
        head, _, text = answer.out.decode().partition("\n")
        places, _ = kept(case, text) or ([], "")
        variables = list(provenance.kept.values())
        chosen = [
            z3.BoolVal(place in places) == variable for place, variable in provenance.kept.items()
        ]
        if head != f"witness: {len(places)}" or not holds(solver, *chosen):
            return "the witness is no counterexample"
        if holds(solver, z3.AtMost(*variables, len(places) - 1)):
            return "there is a smaller counterexample"
        earlier = one_of(
            [
                both(chosen[:at] + [variables[at]])
                for at, place in enumerate(provenance.kept)
                if place not in places
            ]
        )
        if holds(solver, earlier, z3.AtMost(*variables, len(places))):
            return "another one of this size comes first"
        return None


def holds(solver: Any, *formulas: Formula) -> bool:
    """Whether all of these can be true together."""
    solver.push()
    solver.add(*formulas)
    found = solver.check()
    solver.pop()
    if found == z3.unknown:
        raise Passed("Z3 gave up")
    return bool(found == z3.sat)
