"""Queries and their sources in PostgreSQL's words, in SQLite's."""
from __future__ import annotations

from typing import Any

from sqlglot import exp

from classroom.sql.rewrite_parts import (
    Cannot,
    Columns,
    Names,
    above,
    has_aggregate,
    inner,
    is_aggregate,
    is_star,
    named,
    query,
    sql,
    value,
    width,
)
from classroom.sql.tree import SETS, Node, intersect_first

# Arguments of a node of a set operator that are no modifiers of the whole.
OPERATOR = ("this", "expression", "distinct", "by_name")
ENDS = ("order", "limit", "offset")
MOST_SETS = 16


def grouped(tree: Node) -> Node:
    """The tree with its set operators from the left, INTERSECT first, and with what stands behind
    the last operand at the whole chain; sqlglot groups them from the right."""
    roots = [
        node
        for node in tree.find_all(*SETS)
        if not (isinstance(node.parent, SETS) and node.arg_key == "expression")
    ]
    for root in reversed(roots):
        kept: dict[str, Any] = {}
        last: Any = root
        while isinstance(last, SETS):
            kept.update(
                (key, held) for key, held in last.args.items() if held and key not in OPERATOR
            )
            last = last.expression
        if isinstance(last, exp.Select):
            for key in ENDS:
                if last.args.get(key):
                    kept[key] = last.args[key]
                    last.set(key, None)
        made = intersect_first(root)
        for key, held in kept.items():
            made.set(key, held)
        if root is tree:
            tree = made
        else:
            root.replace(made)
    return tree


def bags(node: Any, names: Names) -> Node:
    """EXCEPT ALL and INTERSECT ALL: of equal rows each has a number."""
    count = width(node.this)
    if count is None:
        raise Cannot("ALL of all columns")
    columns = [names.fresh("c") for _ in range(count)]
    text, number = ", ".join(columns), names.fresh("r")
    sides = [
        f"SELECT {text}, ROW_NUMBER() OVER (PARTITION BY {text}) AS {number}"
        f" FROM {named(side, columns)}"
        for side in (node.this, node.expression)
    ]
    word = "EXCEPT" if isinstance(node, exp.Except) else "INTERSECT"
    made = query(f"SELECT {text} FROM ({sides[0]} {word} {sides[1]})")
    given = inner(node.this)
    while isinstance(given, SETS):
        given = inner(given.this)
    if isinstance(given, exp.Select):
        for one, of in zip(list(made.expressions), given.expressions):
            if of.alias_or_name:
                one.replace(exp.alias_(one.copy(), of.alias_or_name, quoted=True))
    for key in (*ENDS, "with"):
        if node.args.get(key):
            made.set(key, node.args[key])
    return made


def first_of_each(node: Any, names: Names) -> Node:
    """DISTINCT ON."""
    on = node.args["distinct"].args["on"]
    keys = on.expressions if isinstance(on, exp.Tuple) else [inner(on)]
    order = node.args.get("order")
    orders = order.expressions if order else []
    count = width(node)
    if count is None or node.args.get("group") or has_aggregate(node.expressions):
        raise Cannot("DISTINCT ON with groups")
    given = {one.alias.lower() for one in node.expressions if isinstance(one, exp.Alias)}
    for part in [*keys, *orders]:
        if any(
            not column.args.get("table") and column.name.lower() in given
            for column in part.find_all(exp.Column)
        ):
            raise Cannot("DISTINCT ON with a name of SELECT")
    if any(isinstance(one, exp.Literal) for one in [*keys, *(one.this for one in orders)]):
        raise Cannot("DISTINCT ON with a number")
    copy, columns = node.copy(), [names.fresh("c") for _ in range(count)]
    for key in (*ENDS, "distinct", "with"):
        copy.set(key, None)
    made = [
        value(f"{sql(one.this if isinstance(one, exp.Alias) else one)} AS {name}")
        for one, name in zip(copy.expressions, columns)
    ]
    number, by = names.fresh("r"), ", ".join(map(sql, keys))
    ordered = sql(order).strip() if order else ""
    made.append(value(f"ROW_NUMBER() OVER (PARTITION BY {by} {ordered}) AS {number}"))
    outer = [names.fresh("k") for _ in orders]
    made += [value(f"{sql(one.this)} AS {name}") for name, one in zip(outer, orders)]
    copy.set("expressions", made)
    shown = ", ".join(
        f"{name} AS {sql(exp.to_identifier(one.alias_or_name, quoted=True))}"
        if one.alias_or_name
        else name
        for name, one in zip(columns, node.expressions)
    )
    whole = query(f"SELECT {shown} FROM ({sql(copy)}) WHERE {number} = 1")
    if order:
        whole.set(
            "order",
            exp.Order(
                expressions=[
                    exp.Ordered(
                        this=exp.column(name),
                        desc=one.args.get("desc"),
                        nulls_first=one.args.get("nulls_first"),
                    )
                    for name, one in zip(outer, orders)
                ]
            ),
        )
    for key in ("limit", "offset", "with"):
        if node.args.get(key):
            whole.set(key, node.args[key])
    return whole


def grouping_sets(node: Any) -> Node:
    """ROLLUP, CUBE and GROUPING SETS: a SELECT of each set."""
    group = node.args["group"]
    if any(node.args.get(key) for key in (*ENDS, "with", "distinct")):
        raise Cannot("an order over sets of groups")
    always = list(group.expressions)
    kinds = [key for key in ("rollup", "cube", "grouping_sets") if group.args.get(key)]
    if len(kinds) != 1 or not isinstance(group.args[kinds[0]], list):
        raise Cannot("several kinds of sets of groups")
    found = group.args[kinds[0]]
    if kinds[0] == "rollup":
        sets = [found[:count] for count in range(len(found), -1, -1)]
    elif kinds[0] == "cube":
        if len(found) > 4:
            raise Cannot("a large cube")
        sets = [
            [one for at, one in enumerate(found) if number >> at & 1]
            for number in range(1 << len(found))
        ]
    else:
        sets = [
            list(one.expressions) if isinstance(one, exp.Tuple) else [inner(one)] for one in found
        ]
    every = [*always, *(one for some in sets for one in some)]
    if len(sets) > MOST_SETS or any(not isinstance(one, exp.Column) for one in every):
        raise Cannot("sets of groups of more than columns")
    if any(
        str(one.this).upper() == "GROUPING" for one in node.find_all(exp.Anonymous)
    ) or node.find(exp.Window):
        raise Cannot("GROUPING()")
    if any(is_star(one) for one in node.expressions):
        raise Cannot("all columns of sets of groups")
    return query(" UNION ALL ".join(of_set(node, [*always, *some], every) for some in sets))


def of_set(node: Any, keys: list[Any], every: list[Any]) -> str:
    """A SELECT that groups by these columns; the others of the sets are NULL in it."""
    copy, kept = node.copy(), {sql(one).lower() for one in keys}
    gone = {sql(one).lower() for one in every} - kept
    names = {one.split(".")[-1] for one in gone}
    for key in ("expressions", "having"):
        held = copy.args.get(key)
        for part in held if isinstance(held, list) else [held] if held else []:
            for column in list(part.find_all(exp.Column)):
                inner_query = column.find_ancestor(exp.Select)
                if column.name.lower() not in names or any(
                    is_aggregate(one) for one in above(column)
                ):
                    continue
                if inner_query is not copy or sql(column).lower() not in gone:
                    raise Cannot("a column of sets of groups by another name")
                if column is part:
                    held[held.index(part)] = value("NULL")
                    copy.set(key, held)
                else:
                    column.replace(exp.Null())
    if keys:
        copy.set("group", exp.Group(expressions=[one.copy() for one in keys]))
        return sql(copy)
    copy.set("group", None)
    # Of no group there is one row even where no row is: an aggregate makes it so.
    if has_aggregate(copy.expressions):
        return sql(copy)
    if copy.args.get("having"):
        raise Cannot("HAVING of no group")
    counted = copy.copy()
    counted.set("expressions", [value("COUNT(*)")])
    return f"SELECT {', '.join(map(sql, copy.expressions))} FROM ({sql(counted)})"


def source(node: Any, columns: Columns, ctes: set[str]) -> Node:
    """A source of a FROM whose columns get names, as `t AS u(a, b)`."""
    alias = node.args["alias"]
    names = [sql(one) for one in alias.args["columns"]]
    if isinstance(node, exp.Table):
        own = columns.get(node.name.lower())
        if own is None or node.name.lower() in ctes or len(names) > len(own):
            raise Cannot("columns of what is no table")
        every = [sql(exp.to_identifier(name, quoted=True)) for name in own]
        pairs = zip(every, [*names, *every[len(names) :]])
        chosen = ", ".join(f"{one} AS {other}" for one, other in pairs)
        text = f"(SELECT {chosen} FROM {sql(node.this)})"
    else:
        copy = node.copy()
        copy.set("alias", None)
        text = named(copy, names)
    tree = query(f"SELECT 1 FROM {text} AS {sql(alias.this)}")
    made: Node = tree.args["from"].expressions[0]
    return made


def laterals(tree: Node) -> bool:
    """Puts the columns of each LATERAL of one row where they are used; whether there are any."""
    is_changed = False
    for select in list(tree.find_all(exp.Select)):
        begin = select.args.get("from")
        places = [*(select.args.get("joins") or []), *(begin.expressions if begin else [])]
        for place in places:
            lateral = place.this if isinstance(place, exp.Join) else place
            if not isinstance(lateral, exp.Lateral):
                continue
            put(select, place, lateral)
            is_changed = True
            if isinstance(place, exp.Join):
                rest = [one for one in select.args["joins"] if one is not place]
                select.set("joins", rest)
            else:
                rest = [one for one in begin.expressions if one is not place]
                if not rest:
                    raise Cannot("LATERAL alone")
                begin.set("expressions", rest)
    return is_changed


def put(select: Any, place: Any, lateral: Any) -> None:
    of = lateral.this
    while isinstance(of, (exp.Subquery, exp.Paren)):
        of = of.this
    if not isinstance(of, exp.Select) or of.args.get("distinct") or of.args.get("offset"):
        raise Cannot("LATERAL of no plain SELECT")
    alias = lateral.args.get("alias") or lateral.this.args.get("alias")
    if alias is None or not has_one_row(of, place) or any(map(is_star, of.expressions)):
        raise Cannot("LATERAL of several rows")
    given = [one.name for one in alias.args.get("columns") or []]
    values: dict[str, Node] = {}
    for at, one in enumerate(of.expressions):
        copy, name = of.copy(), given[at] if at < len(given) else one.alias_or_name
        copy.set("expressions", [(one.this if isinstance(one, exp.Alias) else one).copy()])
        values[name.lower()] = exp.Subquery(this=copy)
    if any(map(is_star, select.expressions)):
        raise Cannot("all columns beside LATERAL")
    for column in list(select.find_all(exp.Column)):
        name, table = column.name.lower(), column.text("table").lower()
        if any(one is lateral for one in above(column)):
            continue
        if table == alias.name.lower():
            if name not in values:
                raise Cannot("a column that LATERAL has not")
            is_shown = column.parent is select and column.arg_key == "expressions"
            new: Node = values[name].copy()
            column.replace(exp.alias_(new, column.name) if is_shown else new)
        elif not table and name in values:
            raise Cannot("a column of LATERAL by its name alone")


def has_one_row(of: Any, place: Any) -> bool:
    """Whether there is one row for each before, or NULL stands for none."""
    limit = of.args.get("limit")
    is_single = not of.args.get("from") and not of.args.get("where")
    is_whole = has_aggregate(of.expressions) and not any(
        of.args.get(key) for key in ("group", "having")
    )
    is_left = isinstance(place, exp.Join) and str(place.args.get("side") or "").upper() == "LEFT"
    on = place.args.get("on") if isinstance(place, exp.Join) else None
    if on is not None and sql(on).upper() not in ("TRUE", "1", "1 = 1"):
        return False
    if limit is None:
        return is_single or is_whole
    few = limit.args.get("expression") or limit.args.get("count")
    return is_left and (few is None or sql(few) == "1")
