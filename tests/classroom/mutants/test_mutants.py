"""The mistakes that are made of a query, and which of them rows show."""
from __future__ import annotations

import csv
import io
from pathlib import Path

import pytest
from products import TOP, classroom, run

from classroom.sql.schema import tables_of

pytest.importorskip("sqlglot", reason="no sqlglot: apt-get install python3-sqlglot")

from classroom.mutants.mutants import mutants, plain  # noqa: E402

TABLES = tables_of(
    "CREATE TABLE t (a INTEGER, b INTEGER, n TEXT); CREATE TABLE u (a INTEGER, c INTEGER, m TEXT);"
)

# A query, and by mistakes the texts that each makes of it, written by hand.
MADE = {
    "SELECT a FROM t WHERE b < 3": {
        "= for <": "SELECT a FROM t WHERE b = 3",
        "<> for <": "SELECT a FROM t WHERE b <> 3",
        "<= for <": "SELECT a FROM t WHERE b <= 3",
        "> for <": "SELECT a FROM t WHERE b > 3",
        ">= for <": "SELECT a FROM t WHERE b >= 3",
        "4 for 3": "SELECT a FROM t WHERE b < 4",
        "2 for 3": "SELECT a FROM t WHERE b < 2",
        "b for a": "SELECT b FROM t WHERE b < 3",
        "a for b": "SELECT a FROM t WHERE a < 3",
        "the condition dropped": "SELECT a FROM t",
    },
    "SELECT n FROM t WHERE a = -1 AND b = 0 OR n IS NULL": {
        "0 for -1": "SELECT n FROM t WHERE a = 0 AND b = 0 OR n IS NULL",
        "-2 for -1": "SELECT n FROM t WHERE a = -2 AND b = 0 OR n IS NULL",
        "-1 for 0": "SELECT n FROM t WHERE a = -1 AND b = -1 OR n IS NULL",
        "AND for OR": "SELECT n FROM t WHERE a = -1 AND b = 0 AND n IS NULL",
        "OR for AND": "SELECT n FROM t WHERE (a = -1 OR b = 0) OR n IS NULL",
        "a = -1 dropped": "SELECT n FROM t WHERE b = 0 OR n IS NULL",
        "n IS NULL dropped": "SELECT n FROM t WHERE a = -1 AND b = 0",
        "= NULL for IS NULL": "SELECT n FROM t WHERE a = -1 AND b = 0 OR n = NULL",
    },
    "SELECT a FROM t WHERE a = 1 OR b = 2 AND n IS NULL": {
        "b = 2 dropped": "SELECT a FROM t WHERE a = 1 OR n IS NULL",
        "AND for OR": "SELECT a FROM t WHERE a = 1 AND b = 2 AND n IS NULL",
        "OR for AND": "SELECT a FROM t WHERE a = 1 OR (b = 2 OR n IS NULL)",
    },
    "SELECT a FROM t WHERE NOT (a = 1 OR b = 2)": {
        "NOT dropped": "SELECT a FROM t WHERE a = 1 OR b = 2",
        "AND for OR": "SELECT a FROM t WHERE NOT (a = 1 AND b = 2)",
    },
    "SELECT a FROM t WHERE n = NULL": {"IS NULL for = NULL": "SELECT a FROM t WHERE n IS NULL"},
    "SELECT a FROM t WHERE n <> NULL": {
        "IS NOT NULL for <> NULL": "SELECT a FROM t WHERE NOT n IS NULL"
    },
    "SELECT a FROM t WHERE a IN (SELECT c FROM u)": {
        "NOT added": "SELECT a FROM t WHERE NOT a IN (SELECT c FROM u)",
        "a for c": "SELECT a FROM t WHERE a IN (SELECT a FROM u)",
        "JOIN for IN": "SELECT t.a FROM t, u WHERE t.a = u.c",
    },
    "SELECT a FROM t WHERE a NOT IN (SELECT c FROM u WHERE m = 'x')": {
        "NOT dropped": "SELECT a FROM t WHERE a IN (SELECT c FROM u WHERE m = 'x')",
        "JOIN for NOT IN": "SELECT t.a FROM t, u WHERE u.m = 'x' AND NOT t.a = u.c",
    },
    "SELECT n FROM t WHERE EXISTS (SELECT * FROM u WHERE u.a = t.a)": {
        "NOT added": "SELECT n FROM t WHERE NOT EXISTS(SELECT * FROM u WHERE u.a = t.a)",
        "t.a for u.a": "SELECT n FROM t WHERE EXISTS(SELECT * FROM u WHERE t.a = t.a)",
        "u.a for t.a": "SELECT n FROM t WHERE EXISTS(SELECT * FROM u WHERE u.a = u.a)",
        "JOIN for EXISTS": "SELECT t.n FROM t, u WHERE u.a = t.a",
    },
    "SELECT n FROM t JOIN u ON t.a = u.a WHERE c > b": {
        "the condition of JOIN dropped": "SELECT n FROM t CROSS JOIN u WHERE c > b",
        "EXISTS for the JOIN with u": (
            "SELECT t.n FROM t WHERE EXISTS(SELECT * FROM u WHERE u.c > t.b AND t.a = u.a)"
        ),
    },
    "SELECT a, b FROM t": {
        "a dropped from SELECT": "SELECT b FROM t",
        "b dropped from SELECT": "SELECT a FROM t",
        "a and b exchanged": "SELECT b, a FROM t",
    },
    "SELECT a FROM t EXCEPT SELECT a FROM u INTERSECT SELECT c FROM u": {
        "UNION for EXCEPT": "SELECT a FROM t UNION (SELECT a FROM u INTERSECT SELECT c FROM u)",
        "the operands of EXCEPT exchanged": (
            "(SELECT a FROM u INTERSECT SELECT c FROM u) EXCEPT SELECT a FROM t"
        ),
        "EXCEPT for INTERSECT": "SELECT a FROM t EXCEPT (SELECT a FROM u EXCEPT SELECT c FROM u)",
    },
    "SELECT q.x FROM (SELECT a AS x, b FROM t) q": {
        "q.b for q.x": "SELECT q.b FROM (SELECT a AS x, b FROM t) AS q"
    },
    "SELECT \"a\" FROM t WHERE n = 'it''s; -- \"'": {
        'b for "a"': "SELECT b FROM t WHERE n = 'it''s; -- \"'"
    },
}


@pytest.mark.parametrize("query", MADE)
def test_each_mistake(query: str) -> None:
    found = {(mutant.mistake, mutant.text) for mutant in mutants(query, TABLES)}
    assert {(mistake, text) for mistake, text in MADE[query].items()} <= found
    assert plain(query) not in {text for _, text in found}
    assert len({text for _, text in found}) == len(found)


def test_a_chain_of_set_operators_is_grouped_from_the_left() -> None:
    assert (
        plain("SELECT a FROM t EXCEPT SELECT b FROM t UNION SELECT c FROM u")
        == "(SELECT a FROM t EXCEPT SELECT b FROM t) UNION SELECT c FROM u"
    )


def test_written_back(ratest: Path, ratest_plus: Path, tmp_path: Path) -> None:
    """Each query is written back with its meaning, and no mutant is refused but for the shape of
    its answer."""
    (tmp_path / "schema.sql").write_text(
        "CREATE TABLE t (a INTEGER, b INTEGER, n TEXT);"
        "CREATE TABLE u (a INTEGER, c INTEGER, m TEXT);"
    )
    (tmp_path / "t.csv").write_text("a,b,n\n1,2,x\n3,,\n-1,0,it's\n2,2,y\n")
    (tmp_path / "u.csv").write_text("a,c,m\n1,3,x\n,2,\n3,1,y\n")
    for number, query in enumerate(MADE):
        (tmp_path / "one.sql").write_text(query)
        (tmp_path / "two.sql").write_text(plain(query))
        ran = run(
            ratest, tmp_path / "schema.sql", tmp_path, tmp_path / "one.sql", tmp_path / "two.sql"
        )
        assert ran.stdout == "agree\n", query
        mistaken = [mutant.text for mutant in mutants(query, TABLES)]
        names = [tmp_path / f"{number}_{place}.sql" for place in range(len(mistaken))]
        for name, text in zip(names, mistaken):
            name.write_text(text)
        (tmp_path / "list").write_text("".join(f"{name}\n" for name in names))
        ran = run(
            ratest_plus,
            "grade",
            tmp_path / "schema.sql",
            tmp_path,
            tmp_path / "one.sql",
            tmp_path / "list",
        )
        faults = {
            line.split(": ", 2)[2] for line in ran.stdout.splitlines() if ": refused: " in line
        }
        # The last is of a column that a subquery in FROM lost.
        assert faults <= {
            "types do not match",
            "numbers of columns differ",
            "unknown column: x",
        }, query


def test_beers(ratest: Path, ratest_plus: Path, beers: Path) -> None:
    ran = classroom("mutants", beers)
    assert (ran.returncode, ran.stderr) == (0, "")
    assert ran.stdout.splitlines()[-1] == "135 of 155 mutants told by 16 rows"
    # No bar of the 16 rows serves one beer at two prices or more: the cheapest is any that has a
    # price.
    assert "  agrees: t.price for s.price\n" in ran.stdout
    found = list(csv.reader(io.StringIO((beers / "mutants/mutants.csv").read_text(), newline="")))
    assert len(found) == 156 and sum(line[3] == "told" for line in found) == 135
    for task, _, _, verdict, rows, _, query, by in found[1::7]:
        assert by == "proved"
        (beers / "query.sql").write_text(query)
        alone = run(
            ratest, beers / "schema.sql", beers, beers / task / "reference.sql", beers / "query.sql"
        )
        assert alone.stdout.startswith(
            "agree\n" if verdict == "agrees" else f"witness: {rows}\n"
        ), query
    again = classroom("mutants", beers, "--task", "2")
    assert again.stdout.splitlines()[0] == "task 2: 13 of 14 mutants told"


def test_goes_on(ratest: Path, ratest_plus: Path, beers: Path) -> None:
    whole = classroom("mutants", beers, "--task", "2")
    kept = sorted((beers / "mutants/runs").iterdir())
    for path in kept[::2]:
        path.unlink()
    kept[1].write_text("{")
    assert classroom("mutants", beers, "--task", "2").stdout == whole.stdout


def test_limits(ratest: Path, ratest_plus: Path, beers: Path) -> None:
    ran = classroom("mutants", beers, "--task", "1", "--conflicts", "1")
    assert ran.returncode == 1 and "  no verdict, undecided: " in ran.stdout
    assert ran.stderr.endswith(" mutants have no verdict\n")


@pytest.mark.parametrize(
    "words, told",
    [(["--task", "9"], "there is no task 9"), (["--jobs", "0"], "a whole number from 1 is wanted")],
)
def test_words(ratest: Path, beers: Path, words: list[str], told: str) -> None:
    ran = classroom("mutants", beers, *words)
    assert ran.returncode in (1, 2) and told in ran.stderr


def test_a_reference_that_sqlglot_does_not_read(
    ratest: Path, ratest_plus: Path, beers: Path
) -> None:
    (beers / "2/reference.sql").write_text("SELECT name AS values FROM drinker")
    ran = classroom("mutants", beers, "--task", "2")
    assert ran.returncode in (0, 1)
    if ran.returncode:
        assert ran.stderr == "classroom: task 2: reference.sql: sqlglot does not read the query\n"


def test_help() -> None:
    ran = run(TOP / "classroom", "mutants", "--help")
    assert ran.returncode == 0 and "UNION, EXCEPT and INTERSECT" in ran.stdout
