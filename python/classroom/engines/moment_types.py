"""Which texts of a query PostgreSQL reads as dates, such as 'today', by the types of parameters in
their place."""
from __future__ import annotations

from typing import Any

from classroom.sql.clock import with_parameters

# By their numbers in pg_type: "char", name, text, json, unknown, bpchar, varchar, jsonb.
TEXTS = frozenset({18, 19, 25, 114, 705, 1042, 1043, 3802})
NAME = b"moments"
UNDECIDED = "42P18"  # no type can be told: it is a text


def moment(session: Any, query: str) -> str:
    """The first text of a query that stands for a moment of the clock; "" where none does. The
    query itself is one that the server prepares."""
    text, taken = with_parameters(query)
    if not taken:
        return ""
    connection = session.pgconn
    made = connection.prepare(NAME, text.encode("utf-8", "replace"))
    if made.error_message:
        state = made.error_field(67)
        return "" if state == UNDECIDED.encode() else taken[0]
    try:
        told = connection.describe_prepared(NAME)
        kinds = [told.param_type(at) for at in range(len(taken))]
    finally:
        session.execute(f"DEALLOCATE {NAME.decode()}")
    return next((one for one, kind in zip(taken, kinds) if kind not in TEXTS), "")
