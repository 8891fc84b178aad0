"""Windows whose value depends on the order of tied rows, written so that a key orders these.

A key may not stand behind the order of a window where the frame ends with the current row's peers:
with the key no row has any. There the value is asked of the peers alone. """
from __future__ import annotations

from collections.abc import Callable, Mapping

from sqlglot import exp

from classroom.sql.tree import Node

# Whatever the frame is, the order of tied rows counts.
NUMBERED = frozenset({"ROW_NUMBER", "NTILE", "LAG", "LEAD"})
VALUES = frozenset({"FIRST_VALUE", "LAST_VALUE", "NTH_VALUE"})
RANKED = frozenset({"RANK", "DENSE_RANK", "PERCENT_RANK", "CUME_DIST"})
BEGIN, HERE, END = "UNBOUNDED PRECEDING", "CURRENT ROW", "UNBOUNDED FOLLOWING"


def quote_names(tree: Node) -> None:
    """Puts the names of windows in quotes where they are used: sqlglot writes no blank behind
    them."""
    for node in tree.find_all(exp.Window):
        if node.args.get("alias"):
            node.args["alias"].set("quoted", True)


def without_names(select: Node) -> None:
    """Puts what WINDOW names where it is used."""
    known = {str(one.name).lower(): one for one in select.args.get("windows") or []}
    if not known:
        return
    for node in list(select.find_all(exp.Window)):
        if node.arg_key != "windows" and node.find_ancestor(exp.Select) is select:
            fill(node, known)
    select.set("windows", None)


def fill(window: Node, known: Mapping[str, Node]) -> None:
    """Gives a window all parts of the one whose name it has."""
    name = window.args.get("alias")
    seen: set[str] = set()
    while name is not None:
        base = known[str(name.name).lower()]
        if base.name in seen:
            raise ValueError("a window that names itself")
        seen.add(base.name)
        for part, value in base.args.items():
            if part in ("partition_by", "order", "spec") and value and not window.args.get(part):
                copies = [one.copy() for one in value] if isinstance(value, list) else value.copy()
                window.set(part, copies)
        name = base.args.get("alias")
    window.set("alias", None)


def function(window: Node) -> str:
    """The name of what is computed, in capitals."""
    inner = window.this.this if isinstance(window.this, exp.Filter) else window.this
    return str(inner.name if isinstance(inner, exp.Anonymous) else inner.sql_name()).upper()


def frame(window: Node) -> tuple[str, str, str]:
    """The kind of the frame, and where it begins and ends; a number of rows is `?`."""
    spec = window.args.get("spec")
    if spec is None:
        return "RANGE", BEGIN, HERE
    return str(spec.args["kind"]).upper(), side(spec, "start"), side(spec, "end")


def side(spec: Node, name: str) -> str:
    value, beside = spec.args.get(name), spec.args.get(f"{name}_side")
    if isinstance(value, Node):
        return "?"
    return " ".join(str(one).upper() for one in (value, beside) if one) or HERE


def with_key(window: Node, key: Callable[[], Node], joins: bool) -> Node | None:
    """What stands for a window, with the key: itself, changed, or another. None where its value
    doesn't depend on the order of tied rows, or no key can show it.

    `joins`: whether it puts values one behind the other."""
    name, (kind, begin, end) = function(window), frame(window)
    is_ordered = bool(window.args.get("order"))
    if name in RANKED:
        return None
    if name in NUMBERED:
        window.set("spec", None)
        return ordered(window, key)
    if kind == "ROWS":
        return ordered(window, key)
    if kind != "RANGE" or "?" in (begin, end):
        return None
    if not is_ordered:  # all rows are peers
        begin, end = BEGIN, END
    if (begin, end) == (BEGIN, END):
        if not joins and name not in VALUES:
            return None
        return framed(ordered(window, key), BEGIN, END)
    if name == "FIRST_VALUE" and begin == BEGIN:
        return ordered(window, key)
    if name == "LAST_VALUE" and end == END:
        return framed(ordered(window, key), HERE, END)
    if name in ("FIRST_VALUE", "LAST_VALUE"):
        return of_peers(window, key)
    if name == "NTH_VALUE" and begin == BEGIN:
        return nth(window, key)
    return None


def ordered(window: Node, key: Callable[[], Node]) -> Node:
    order = window.args.get("order")
    if order:
        order.append("expressions", key())
    else:
        window.set("order", exp.Order(expressions=[key()]))
    return window


def framed(window: Node, begin: str, end: str) -> Node:
    (start, start_side), (stop, stop_side) = (
        (HERE, None) if one == HERE else one.split() for one in (begin, end)
    )
    spec = exp.WindowSpec(
        kind="ROWS", start=start, start_side=start_side, end=stop, end_side=stop_side
    )
    window.set("spec", spec)
    return window


def of_peers(window: Node, key: Callable[[], Node]) -> Node:
    """The value of any of the current row's peers, of which a frame begins or ends with."""
    value = function_of(window).expressions[0].copy()
    keys = [one.this.copy() for one in window.args["order"].expressions]
    made = exp.Window(
        this=exp.Anonymous(this="FIRST_VALUE", expressions=[value]),
        partition_by=[*(one.copy() for one in window.args.get("partition_by") or []), *keys],
        order=exp.Order(expressions=[key()]),
    )
    return replaced(window, made)


def nth(window: Node, key: Callable[[], Node]) -> Node:
    """A value that is there where the frame, which ends with the peers, has as many rows."""
    number = function_of(window).expressions[1].copy()
    count = exp.Window(
        this=exp.Count(this=exp.Star()),
        partition_by=[one.copy() for one in window.args.get("partition_by") or []],
        order=window.args["order"].copy(),
    )
    inner = framed(ordered(window.copy(), key), BEGIN, END)
    has = exp.If(this=exp.GTE(this=count, expression=number), true=inner)
    return replaced(window, exp.Case(ifs=[has]))


def function_of(window: Node) -> Node:
    if not isinstance(window.this, exp.Anonymous):
        raise ValueError("a function that is not read")
    return window.this


def replaced(window: Node, made: Node) -> Node:
    """Puts another expression in the place of a window, whose column keeps its name."""
    is_column = isinstance(window.parent, exp.Select) and window.arg_key == "expressions"
    new = exp.alias_(made, function(window).lower()) if is_column else made
    window.replace(new)
    return new
