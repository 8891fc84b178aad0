"""What the asker of a trial in PostgreSQL can see of other trials: each routine that it may execute
is called."""
from __future__ import annotations

import itertools
from collections.abc import Iterator
from typing import Any

import pytest
import shop
from roles import Roles

from classroom.engines.postgres import Postgres
from classroom.exercise.part_masks import Parts
from classroom.exercise.typed_rows import POSTGRESQL

SECRET = "planted424242"
TYPES = ("integer", "oid", "name", "text", "boolean", "regclass")
MOST_CALLS = 60  # of one routine
ROUTINES = """SELECT oid::regproc::text, ARRAY(SELECT format_type(arg, NULL) FROM
    unnest(proargtypes) WITH ORDINALITY AS a(arg, at) ORDER BY at), proretset FROM pg_proc
    WHERE prokind = 'f' AND has_function_privilege(oid, 'EXECUTE') AND prorettype::regtype::text
    NOT IN ('internal', 'trigger', 'event_trigger', 'void', 'cstring') ORDER BY oid"""


@pytest.fixture
def other(roles: Roles) -> Iterator[Postgres]:
    """Another trial, with the secret in its queries and in its rows."""
    material = shop.material(POSTGRESQL, items=3)
    parts = Parts(material.pool)
    text = f"SELECT name, '{SECRET}' FROM customer"
    engine = Postgres(material, parts, text, text, roles.loader, roles.asker)
    engine.answers((1 << len(parts.rows)) - 1)
    engine.loader.execute(f"UPDATE customer SET name = '{SECRET}'")
    for session in engine.askers:
        session.execute(f"SELECT name, '{SECRET}' FROM customer")
    yield engine
    engine.close()


def values(engine: Postgres, session: Any) -> dict[str, list[str]]:
    """What stands for an argument of each type: whatever leads to another session or schema."""
    oid = engine.one(engine.loader, "SELECT 'customer'::regclass::oid::text")
    space = engine.one(
        engine.loader, f"SELECT oid::text FROM pg_namespace WHERE nspname = '{engine.schema}'"
    )
    pids = [str(one.info.backend_pid) for one in engine.askers]
    texts = [f"'{engine.schema}'", f"'{engine.schema}.customer'", "''"]
    return {
        "integer": [*map(str, range(9)), *pids],
        "oid": [oid, space, *pids],
        "name": texts,
        "text": texts,
        "boolean": ["true", "false"],
        "regclass": [f"{oid}::regclass"],
    }


def found_by(session: Any, engine: Postgres) -> tuple[set[str], int]:
    """The routines that show the secret, and how many were called."""
    known, shown, called = values(engine, session), set(), 0
    for name, types, _ in session.execute(ROUTINES).fetchall():
        if not set(types) <= set(TYPES):
            continue
        called += 1
        choices = itertools.product(*(known[one] for one in types))
        for chosen in itertools.islice(choices, MOST_CALLS):
            arguments = ", ".join(f"{one}::{kind}" for one, kind in zip(chosen, types))
            try:
                told = session.execute(f"SELECT f::text FROM {name}({arguments}) AS f").fetchall()
            except engine.psycopg.Error:
                continue
            if SECRET in str(told):
                shown.add(name)
                break
    return shown, called


def test_no_routine_shows_another_session_or_another_trial(roles: Roles, other: Postgres) -> None:
    import psycopg

    with psycopg.connect(roles.asker, autocommit=True) as session:
        session.execute("SET statement_timeout = '2s'; SET lock_timeout = '1s'")
        shown, called = found_by(session, other)
    assert called > 300 and shown == set()


def test_rows_of_another_trial_are_not_there(roles: Roles, other: Postgres) -> None:
    import psycopg

    with psycopg.connect(roles.asker, autocommit=True) as session:
        for table in other.material.names():
            rows = session.execute(f'SELECT * FROM {other.schema}."{table}"').fetchall()
            assert rows == []
    assert other.one(other.askers[0], "SELECT count(*) FROM customer") > 0


def test_what_is_hidden_is_seen_by_a_superuser(roles: Roles, other: Postgres) -> None:
    """So the calls above would find it."""
    import psycopg

    with psycopg.connect(roles.owner, autocommit=True) as session, psycopg.connect(
        roles.owner, autocommit=True
    ) as seen:
        seen.execute(f"SELECT '{SECRET}'")
        told = session.execute(
            "SELECT pg_stat_get_backend_activity(b) FROM pg_stat_get_backend_idset() AS b"
        ).fetchall()
        assert (f"SELECT '{SECRET}'",) in told
        assert SECRET in str(
            session.execute(f"SELECT schema_to_xml('{other.schema}', true, true, '')").fetchall()
        )
