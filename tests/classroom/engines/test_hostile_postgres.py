"""Hostile queries over PostgreSQL: each is refused, or ended by the limit that is named, and
changes nothing."""
from __future__ import annotations

import re
import time
from collections.abc import Iterator

import pytest
import shop
from roles import Roles

from classroom.base.errors import Fault
from classroom.engines.counterexample import Search
from classroom.engines.looks import Wanted
from classroom.engines.engine import Bars, Stopped, TooMuch
from classroom.exercise.typed_rows import POSTGRESQL, Material
from classroom.exercise.part_masks import Parts
from classroom.engines import postgres
from classroom.verdict.verdict import Differs
from classroom.engines.own_words import own_words
from classroom.engines.postgres import Postgres

TWELVE = ", ".join(f"item i{at}" for at in range(12))
DENIED = "permission denied"

# The query, and what ends it with the words that are told.
HOSTILE = {
    "pg_sleep": ("SELECT pg_sleep(100)", Bars, DENIED),
    "pg_sleep_for": ("SELECT pg_sleep_for('1 min')", Stopped, DENIED),
    "pg_read_file": ("SELECT pg_read_file('secret')", Bars, DENIED),
    "pg_ls_dir": ("SELECT pg_ls_dir('/')", Bars, DENIED),
    "set_config": ("SELECT set_config('statement_timeout', '0', false)", Bars, DENIED),
    "a setting of the server": ("SELECT current_setting('data_directory')", Bars, "superuser"),
    "UPDATE": ("UPDATE item SET qty = 0", Bars, "SELECT"),
    "COPY to a program": ("COPY item TO PROGRAM 'id'", Bars, "SELECT"),
    "lo_import": ("SELECT lo_import('secret')", Bars, DENIED),
    "lo_create": ("SELECT lo_create(0)", Bars, DENIED),
    "lo_from_bytea": ("SELECT lo_from_bytea(0, 'abc')", Bars, DENIED),
    "query_to_xml": ("SELECT query_to_xml('select 1', true, true, '')", Bars, DENIED),
    "random": ("SELECT random()", Bars, DENIED),
    "clock_timestamp": ("SELECT clock_timestamp()", Bars, DENIED),
    "gen_random_uuid": ("SELECT gen_random_uuid()", Bars, DENIED),
    "advisory lock": ("SELECT pg_advisory_lock(1)", Bars, DENIED),
    "pg_terminate_backend": ("SELECT pg_terminate_backend(1)", Bars, DENIED),
    "pg_notify": ("SELECT pg_notify('a', 'b')", Bars, DENIED),
    "nextval": ("SELECT nextval('x')", Stopped, "permission denied|does not exist"),
    "txid_current": ("SELECT txid_current()", Bars, DENIED),
    "pg_authid": ("SELECT * FROM pg_authid", Bars, DENIED),
    "pg_stat_activity": ("SELECT query FROM pg_stat_activity", Bars, DENIED),
    "pg_prepared_statements": ("SELECT statement FROM pg_prepared_statements", Bars, DENIED),
    "generate_series": (
        "SELECT count(*) FROM generate_series(1, 10000000000)",
        TooMuch,
        "time|size|memory",
    ),
    "many rows": ("SELECT generate_series(1, 300000)", TooMuch, "rows"),
    "temporary files": (
        (
            "SELECT count(*) FROM (SELECT DISTINCT g::text || repeat('x', 1000) FROM"
            " generate_series(1, 1000000) g) x"
        ),
        TooMuch,
        "size|time",
    ),
    "twelve tables": (f"SELECT count(*) FROM {TWELVE}", TooMuch, "time"),
    "endless recursion": (
        "WITH RECURSIVE r(n) AS (SELECT 1 UNION ALL SELECT n + 1 FROM r) SELECT count(*) FROM r",
        TooMuch,
        "time|size",
    ),
    "doubled texts": (
        (
            "WITH RECURSIVE r(t) AS (SELECT 'x' UNION ALL SELECT t || t FROM r) SELECT"
            " max(length(t)) FROM r"
        ),
        TooMuch,
        "size|memory|time",
    ),
    "a text of 2 GB": ("SELECT length(repeat('x', 2000000000))", TooMuch, "size|memory"),
    "two statements": ("SELECT 1; COMMIT; DROP TABLE item", Bars, "one statement"),
    "DELETE in WITH": (
        "WITH d AS (DELETE FROM item RETURNING *) SELECT * FROM d",
        Bars,
        "permission denied|read-only",
    ),
    "SELECT INTO": ("SELECT * INTO x FROM item", Stopped, "INTO|read-only|permission"),
    "FOR UPDATE": ("SELECT * FROM item FOR UPDATE", Bars, "permission denied|read-only"),
    "DO": ("DO $$ begin perform 1; end $$", Bars, "SELECT"),
    "LISTEN": ("LISTEN x", Bars, "SELECT"),
    "SET": ("SET statement_timeout = 0", Bars, "SELECT"),
    "RESET": ("RESET statement_timeout", Bars, "SELECT"),
    "SHOW": ("SHOW data_directory", Bars, "SELECT"),
    "EXPLAIN": ("EXPLAIN ANALYZE SELECT 1", Bars, "SELECT"),
    "COPY": ("COPY item TO STDOUT", Bars, "SELECT"),
    "depth": (f"SELECT {'(' * 20000}1{')' * 20000}", Stopped, "memory|size|depth"),
    "ts_stat": ("SELECT * FROM ts_stat('select 1')", Stopped, "permission|volatile|denied"),
    "a text of 70,000": (f"SELECT '{'x' * 70_000}'", TooMuch, "size"),
}


@pytest.fixture(scope="module")
def material() -> Material:
    return shop.material(POSTGRESQL, items=12)


def schemas(roles: Roles) -> set[tuple[str, ...]]:
    import psycopg

    with psycopg.connect(roles.owner) as session:
        return set(session.execute("SELECT nspname FROM pg_namespace WHERE nspname LIKE 'ratest%'"))


@pytest.fixture(autouse=True)
def nothing_left(roles: Roles) -> Iterator[None]:
    """No schema of a trial is left behind. Of processes that other tests had killed some may be
    there."""
    before = schemas(roles)
    yield
    assert schemas(roles) <= before


@pytest.mark.parametrize("name", HOSTILE)
def test_hostile(name: str, roles: Roles, material: Material) -> None:
    text, kind, words = HOSTILE[name]
    parts = Parts(material.pool)
    whole = (1 << len(parts.rows)) - 1
    begun = time.monotonic()
    engine = None
    try:
        with pytest.raises(kind) as raised:
            engine = Postgres(
                material,
                parts,
                "SELECT ord FROM item",
                text,
                roles.loader,
                roles.asker,
                seconds=1.0,
            )
            engine.answers(whole)
        assert (
            re.search(words, raised.value.message) and raised.value.which == 1
        ), raised.value.message
        assert time.monotonic() - begun < 30
        if engine:
            assert engine.one(engine.loader, "SELECT count(*) FROM item") == 12
    finally:
        if engine:
            engine.close()


def test_ordinary_functions_may_be_called(roles: Roles, material: Material) -> None:
    for text in (
        "SELECT round(avg(qty), 2), string_agg(sku, ',' ORDER BY sku) FROM item",
        "SELECT extract(year FROM day::date), to_char(day::date, 'YYYY') FROM orders",
        (
            "SELECT upper(name), substring(name FROM 1 FOR 3), coalesce(city, ''), name ILIKE 'a%'"
            " FROM customer"
        ),
        "SELECT percentile_cont(0.5) WITHIN GROUP (ORDER BY price) FROM product",
        "SELECT g FROM generate_series(1, 3) g",
        "SELECT c.name, count(*) FROM customer c JOIN orders o ON o.customer = c.id GROUP BY c.id",
        "SELECT kind, count(*) FILTER (WHERE price > 3) FROM product GROUP BY ROLLUP (kind)",
    ):
        parts = Parts(material.pool)
        engine = Postgres(material, parts, text, text, roles.loader, roles.asker)
        answers = engine.answers((1 << len(parts.rows)) - 1)
        engine.close()
        assert answers[0].lines and answers[0].lines == answers[1].lines


def test_neither_session_has_the_other_s_text(roles: Roles, material: Material) -> None:
    parts = Parts(material.pool)
    engine = Postgres(
        material,
        parts,
        "SELECT ord FROM item WHERE qty > 1",
        "SELECT ord FROM item",
        roles.loader,
        roles.asker,
    )
    assert engine.askers[0].info.backend_pid != engine.askers[1].info.backend_pid
    engine.close()


@pytest.mark.parametrize(
    "loader, asker, told",
    [
        ("owner", "asker", "engine: its user is a superuser"),
        ("loader", "owner", "engine_asker: its user is a superuser"),
        ("loader", "loader", "engine_asker: its user may create"),
        ("nobody", "asker", "engine: "),
    ],
)
def test_roles_that_may_more_are_refused(
    loader: str, asker: str, told: str, roles: Roles, material: Material
) -> None:
    connections = {
        **roles._asdict(),
        "nobody": roles.loader.replace("ratest_loader", "ratest_nobody"),
    }
    with pytest.raises(Fault, match=told):
        Postgres(
            material,
            Parts(material.pool),
            "SELECT 1",
            "SELECT 1",
            connections[loader],
            connections[asker],
        )


def test_an_asker_that_may_execute_volatile_routines_is_refused(
    roles: Roles, material: Material
) -> None:
    import psycopg

    with psycopg.connect(roles.owner, autocommit=True) as session:
        session.execute("GRANT EXECUTE ON FUNCTION pg_sleep(double precision) TO ratest_asker")
        try:
            with pytest.raises(Fault, match="may execute volatile routines"):
                Postgres(
                    material,
                    Parts(material.pool),
                    "SELECT 1",
                    "SELECT 1",
                    roles.loader,
                    roles.asker,
                )
        finally:
            session.execute(
                "REVOKE EXECUTE ON FUNCTION pg_sleep(double precision) FROM ratest_asker"
            )


def test_what_a_killed_trial_left_is_removed(roles: Roles, material: Material) -> None:
    import psycopg

    left = f"ratest_trial_{int(time.time())}_abc"
    with psycopg.connect(roles.loader, autocommit=True) as session:
        session.execute(f"CREATE SCHEMA {left}")
    engine = Postgres(
        material, Parts(material.pool), "SELECT 1", "SELECT 1", roles.loader, roles.asker
    )
    try:
        assert (left,) not in schemas(roles) and (engine.schema,) in schemas(roles)
        # One that is in use stays.
        Postgres(
            material, Parts(material.pool), "SELECT 1", "SELECT 1", roles.loader, roles.asker
        ).close()
        assert (engine.schema,) in schemas(roles)
    finally:
        engine.close()


@pytest.mark.parametrize("user, key", [("ratest_asker", "asker"), ("ratest_loader", "loader")])
def test_sessions_that_show_their_texts_are_refused(
    user: str, key: str, roles: Roles, material: Material
) -> None:
    import psycopg

    with psycopg.connect(roles.owner, autocommit=True) as session:
        session.execute(f"ALTER ROLE {user} SET track_activities = on")
        try:
            with pytest.raises(Fault, match="track_activities"):
                Postgres(
                    material,
                    Parts(material.pool),
                    "SELECT 1",
                    "SELECT 1",
                    roles.loader,
                    roles.asker,
                )
        finally:
            session.execute(f"ALTER ROLE {user} SET track_activities = off")


def test_an_error_inside_of_the_server_is_the_query_s(roles: Roles, material: Material) -> None:
    with pytest.raises(Bars, match="PostgreSQL failed at it: expected 2-element int8 array"):
        Postgres(
            material,
            Parts(material.pool),
            "SELECT ord FROM item",
            "SELECT int4_avg_accum('{1,2,3}', 1)",
            roles.loader,
            roles.asker,
        )


def test_a_server_that_is_gone_is_a_fault(
    roles: Roles, material: Material, monkeypatch: pytest.MonkeyPatch
) -> None:
    engine = Postgres(
        material, Parts(material.pool), "SELECT 1", "SELECT 1", roles.loader, roles.asker
    )
    monkeypatch.setattr(postgres, "RETURNS", 0.0)
    engine.address += " port=1"
    with pytest.raises(Fault, match="the engine: "):
        engine.stopped(1, engine.psycopg.OperationalError("the connection is closed"))
    engine.close()


@pytest.mark.parametrize(
    "message, told",
    [
        ('invalid input syntax for type integer: "PREPARE query AS SELECT 7"', None),
        ("invalid input syntax for type integer: \"PREPARE query AS SELECT 'abc'\"", None),
        ('invalid input syntax for type integer: "Ann"', "the same"),
        ('invalid input syntax for type integer: "abc"', "the same"),
        ('column "sku" of "a "b" secret"', None),
        ('unterminated "secret', None),
        ("division by zero", "the same"),
    ],
)
def test_a_message_quotes_the_own_text_and_the_rows_alone(message: str, told: str | None) -> None:
    made = own_words(message, "SELECT 'abc'::integer, sku FROM item", ["Ann"])
    assert made == message if told else ("PREPARE" not in made and "secret" not in made)


def test_rows_can_be_stored_the_other_way_round(roles: Roles, material: Material) -> None:
    parts = Parts(material.pool)
    engine = Postgres(
        material, parts, "SELECT * FROM item", "SELECT * FROM orders", roles.loader, roles.asker
    )
    whole = (1 << len(parts.rows)) - 1
    for part in (whole, parts.without(whole, [0]), whole, *[whole] * 3):
        ahead, back = engine.answers(part), engine.answers(part, backwards=True)
        for one, other in zip(ahead, back):
            assert len(one.lines) > 1 and list(one.lines) == list(other.lines)[::-1]
    engine.close()


@pytest.mark.parametrize(
    "condition",
    [
        "(ARRAY[(SELECT COUNT(*) FROM customer)])[1] = 0",
        "E'it\\'s' <> '' AND (SELECT COUNT(*) FROM customer) = 0 AND '''' <> ''",
        "$$'$$ <> '' AND (SELECT COUNT(*) FROM customer) = 0",
    ],
)
def test_a_table_that_a_text_hides_has_its_rows(
    condition: str, roles: Roles, material: Material
) -> None:
    reference = "SELECT ord FROM item"
    parts = Parts(material.pool)
    queries = reference, f"{reference} WHERE {condition}"
    engine = Postgres(material, parts, *queries, roles.loader, roles.asker)
    try:
        found = Search(engine, parts, material, queries, Wanted()).outcome()
    finally:
        engine.close()
    assert isinstance(found, Differs) and found.difference == "rows"
