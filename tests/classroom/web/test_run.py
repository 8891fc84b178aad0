"""A student's query alone: what the database returns for it, and nothing of a reference."""
from __future__ import annotations

import re
import sqlite3
from contextlib import closing
from pathlib import Path

import pytest
from roles import Roles
from served import Reply, Server, serving

pytest.importorskip("flask")
pytest.importorskip("waitress")

SQLITE = f"sqlite {sqlite3.sqlite_version}"


def run(server: Server, query: str, headers: dict[str, str] = {}) -> Reply:
    return server.ask("3", query, headers, do="run")


def table(reply: Reply) -> list[list[str]]:
    """The heads and the rows that are shown."""
    rows = re.findall(r"<tr>(.*?)</tr>", reply.answer, re.DOTALL)
    return [re.findall(r"<t[hd][^>]*>(.*?)</t[hd]>", row) for row in rows]


@pytest.mark.parametrize("tries", [False, True], ids=["only proved", "tried"])
def test_what_a_query_returns(ratest: Path, beers: Path, tries: bool) -> None:
    with serving(beers, "--hourly", "1", tries=tries) as server:
        assert ">Run</button>" in server.send("GET", "/").body
        got = run(server, "SELECT bar, beer AS what, price FROM serves WHERE beer <> 'Dixie'")
        assert got.verdict == "returns 2 rows" and f"This is what {SQLITE} returns" in got.answer
        assert table(got) == [
            ["bar", "what", "price"],
            ["Joe&#39;s", "Corona", "NULL"],
            ["Satisfaction", "Corona", "4"],
        ]
        # It is no counterexample, of which one an hour is shown.
        for number in range(3):
            assert run(server, f"SELECT {number} AS n").verdict == "returns 1 row"
        assert "<table" in server.ask("1", "SELECT name FROM bar").answer
    with closing(sqlite3.connect(beers / "results/asked.db")) as database:
        assert database.execute("SELECT count(*) FROM question").fetchone() == (1,)


def test_the_first_rows_are_shown(ratest: Path, beers: Path) -> None:
    with serving(beers) as server:
        got = run(
            server,
            "WITH RECURSIVE n(i) AS (VALUES (1) UNION ALL SELECT i + 1 FROM n WHERE i < 1234)"
            " SELECT i, NULL, '<b>' || i, x'00ff', 1.5 FROM n",
        )
        assert got.verdict == "returns 1234 rows" and "The first 200 rows are shown." in got.answer
        rows = table(got)
        assert len(rows) == 201 and rows[1] == ["1", "NULL", "&lt;b&gt;1", "X&#39;00ff&#39;", "1.5"]
        long = run(server, f"SELECT '{'x' * 5000}'")
        assert f">{'x' * 500}…<" in long.answer and "x" * 501 not in long.answer


def test_what_the_database_refuses(ratest: Path, beers: Path) -> None:
    with serving(beers) as server:
        got = run(server, "SELECT nme FROM bar")
        assert got.verdict.startswith("wrong SQL: no such column: nme")
        got = run(server, "SELECT name\nFORM bar")
        assert "<mark>bar</mark>" in got.answer and got.verdict.startswith("wrong SQL: near")
        got = run(server, "DELETE FROM bar")
        assert "no query" in got.answer
        got = run(server, "SELECT abs(-9223372036854775807 - 1) FROM bar")
        assert got.verdict == "fails" and "integer overflow" in got.answer
        got = run(
            server,
            "WITH RECURSIVE n(i) AS (VALUES (1) UNION ALL SELECT i + 1 FROM n) SELECT max(i) FROM n",
        )
        assert got.verdict == "no verdict" and "passes its limit of time" in got.answer


def test_nothing_of_a_reference_is_in_it(ratest: Path, beers: Path) -> None:
    """The references are other files by now, or wrong: no query needs them."""
    (beers / "3/reference.sql").write_text("SELECT name AS secret_of_the_reference FROM bar")
    with serving(beers, tries=True) as server:
        for query in ("SELECT name FROM bar", "SELECT x", "SELECT sql FROM sqlite_master"):
            got = run(server, query)
            assert "secret_of" not in got.body and "differs" not in got.answer
            assert "agrees" not in got.answer


def test_an_engine_of_postgresql(ratest: Path, beers: Path, roles: Roles) -> None:
    (beers / "exercise.toml").write_text(
        f'engine = "{roles.loader}"\nengine_asker = "{roles.asker}"\n'
    )
    with serving(beers, tries=True) as server:
        got = run(server, "SELECT bar AS \"The bar\", beer ~ '^C' FROM serves ORDER BY price DESC")
        assert "This is what postgresql" in got.answer
        assert table(got) == [
            ["The bar", "?column?"],
            ["Joe&#39;s", "true"],
            ["Satisfaction", "true"],
            ["Joe&#39;s", "false"],
        ]
        got = run(server, "SELECT 1 / (price - 3) FROM serves")
        assert got.verdict == "fails" and "division by zero" in got.answer
        got = run(server, "SELECT nme FROM bar")
        assert got.verdict.startswith("wrong SQL: column") and "<mark>nme</mark>" in got.answer


def test_no_run_before_it_opens(ratest: Path, beers: Path) -> None:
    (beers / "exercise.toml").write_text("opens = 2999-01-01T12:00:00+00:00\n")
    with serving(beers) as server:
        assert (
            server.send(
                "POST",
                "/",
                b"task=3&query=SELECT+1&do=run",
                {"Content-Type": "application/x-www-form-urlencoded"},
            ).status
            == 404
        )
