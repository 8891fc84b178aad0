"""The changes that are made of an answer."""
from __future__ import annotations

import re
import subprocess
from pathlib import Path

import pytest

pytest.importorskip("sqlglot", reason="no sqlglot: apt-get install python3-sqlglot")

from classroom.edits.change import Kind  # noqa: E402
from classroom.edits.edits import Edit, Keys, edits  # noqa: E402
from classroom.edits.query import Query  # noqa: E402
from classroom.edits.pair_vocabulary import vocabulary  # noqa: E402

SCHEMA = """CREATE TABLE person (id INTEGER PRIMARY KEY, name TEXT, city TEXT, boss INTEGER REFERENCES person);
CREATE TABLE club (id INTEGER PRIMARY KEY, name TEXT, town TEXT);
CREATE TABLE member (person INTEGER REFERENCES person, club INTEGER REFERENCES club, since INTEGER, PRIMARY KEY (person, club));
CREATE TABLE fee (club INTEGER REFERENCES club, year INTEGER, euros INTEGER, PRIMARY KEY (club, year));"""


def made(answer: str, reference: str = "SELECT name FROM person") -> list[Edit]:
    return edits(Query(answer, vocabulary(SCHEMA, reference, answer)))


def texts(answer: str, reference: str = "SELECT name FROM person") -> set[str]:
    return {" ".join(edit.text.split()) for edit in made(answer, reference)}


# A reference, an answer, and changes of the answer that are made with their kinds, written by hand.
MADE: dict[tuple[str, str], dict[str, Kind]] = {
    # A comparison, a constant, NULL.
    ("SELECT name FROM person WHERE id > 7", "SELECT name FROM person WHERE id >= 5"): {
        "SELECT name FROM person WHERE id > 5": Kind.COMPARISON,
        "SELECT name FROM person WHERE id >= 6": Kind.CONSTANT,
        "SELECT name FROM person WHERE id >= 7": Kind.CONSTANT,
        "SELECT name FROM person": Kind.CONDITION_TOO_MANY,
        "SELECT city FROM person WHERE id >= 5": Kind.COLUMN,
        "SELECT name FROM person WHERE person.id > 7": Kind.CONDITION,
    },
    ("SELECT name FROM person", "SELECT name FROM person WHERE boss <> 5"): {
        "SELECT name FROM person WHERE boss <> 5 OR boss IS NULL": Kind.NULL
    },
    # A condition of the reference over the names here, and one that joins by a foreign key.
    (
        "SELECT p.name FROM person p, member m WHERE m.person = p.id AND m.since < 3",
        "SELECT x.name FROM person x, member AS y WHERE x.id = x.id",
    ): {
        "SELECT x.name FROM person x, member AS y WHERE x.id = x.id AND y.person = x.id": (
            Kind.JOIN_CONDITION_MISSING
        ),
        "SELECT x.name FROM person x, member AS y WHERE x.id = x.id AND y.since < 3": (
            Kind.CONDITION_MISSING
        ),
        "SELECT x.name FROM person x, member AS y WHERE y.person = x.id AND y.since < 3": (
            Kind.WHERE
        ),
        "SELECT x.name FROM person x WHERE x.id = x.id": Kind.TABLE_TOO_MANY,
    },
    # A subquery of the reference, whose own name is taken here.
    (
        "SELECT name FROM club c WHERE NOT EXISTS (SELECT * FROM fee f WHERE f.club = c.id)",
        "SELECT f.name FROM club f",
    ): {
        "SELECT f.name FROM club f WHERE NOT EXISTS (SELECT * FROM fee f2 WHERE f2.club = f.id)": (
            Kind.CONDITION_MISSING
        )
    },
    # Groups of AND and OR.
    ("SELECT name FROM person", "SELECT name FROM person WHERE id = 1 OR id = 2 AND city = 'x'"): {
        "SELECT name FROM person WHERE (id = 1 OR id = 2) AND city = 'x'": Kind.CONNECTIVE,
        "SELECT name FROM person WHERE id = 1 AND id = 2 AND city = 'x'": Kind.CONNECTIVE,
    },
    # Existence.
    (
        "SELECT name FROM person",
        "SELECT p.name FROM person p, member m WHERE m.person = p.id AND m.since > 3",
    ): {
        "SELECT p.name FROM person p WHERE NOT EXISTS (SELECT * FROM member m WHERE m.person = p.id AND m.since <= 3)": (
            Kind.QUANTIFIER
        ),
        "SELECT p.name FROM person p, member m, club WHERE m.person = p.id AND m.since > 3 AND m.club = club.id": (
            Kind.TABLE_MISSING
        ),
    },
    (
        "SELECT name FROM person",
        "SELECT name FROM person WHERE id NOT IN (SELECT person FROM member)",
    ): {
        "SELECT name FROM person WHERE id IN (SELECT person FROM member)": Kind.QUANTIFIER,
        "SELECT name FROM person WHERE NOT EXISTS (SELECT * FROM member WHERE person.id = member.person)": (
            Kind.NULL
        ),
        "SELECT person.name FROM person, member WHERE NOT person.id = member.person": Kind.JOIN,
    },
    # Sets.
    ("SELECT id FROM person EXCEPT SELECT person FROM member", "SELECT id FROM person"): {
        "SELECT id FROM person EXCEPT SELECT person FROM member": Kind.OPERAND_MISSING
    },
    ("SELECT name FROM person", "SELECT name FROM person EXCEPT SELECT name FROM club"): {
        "SELECT name FROM club EXCEPT SELECT name FROM person": Kind.SET,
        "SELECT name FROM person": Kind.OPERAND_TOO_MANY,
        "SELECT name FROM person INTERSECT SELECT name FROM club": Kind.SET,
    },
    # A table of the same column, and one that a foreign key links.
    ("SELECT name FROM person", "SELECT id FROM club WHERE id > 3"): {
        "SELECT id FROM person AS club WHERE id > 3": Kind.TABLE,
        "SELECT club.club FROM member AS club WHERE club.club > 3": Kind.TABLE,
    },
    # Columns of SELECT.
    ("SELECT name FROM person", "SELECT name, id FROM person"): {
        "SELECT name FROM person": Kind.SELECT,
        "SELECT id, name FROM person": Kind.SELECT,
        "SELECT name, id, person.city FROM person": Kind.SELECT,
    },
}


@pytest.mark.parametrize("reference, answer", MADE)
def test_each_family(reference: str, answer: str) -> None:
    found = {" ".join(edit.text.split()): edit.kind for edit in made(answer, reference)}
    for text, kind in MADE[reference, answer].items():
        assert found.get(text) == kind, (text, found.get(text))


def test_the_place_is_in_the_answer() -> None:
    answer = (
        "SELECT p.name FROM person p -- all\nWHERE p.id IN (SELECT m.person FROM member m WHERE"
        " m.since <= 3)"
    )
    places = {
        edit.mistake: (
            answer[slice(*edit.place)],
            edit.clause.name,
            edit.clause.number,
            edit.clause.depth,
        )
        for edit in made(answer)
    }
    assert places["< for <="] == ("m.since <= 3", "WHERE", 1, 1)
    assert places["NOT added"] == (
        "p.id IN (SELECT m.person FROM member m WHERE m.since <= 3)",
        "WHERE",
        0,
        0,
    )
    assert places["p.city for p.name"] == ("p.name", "SELECT", 0, 0)


def test_columns_that_nothing_relates_are_not_compared() -> None:
    answer = "SELECT p.name FROM person p, club c, fee f WHERE p.id = f.year"
    unrelated = [
        text
        for text in texts(answer)
        if re.search(
            (
                r"p\.city (=|<>) c\.town|p\.name (=|<>) c\.town|f\.euros (=|<) p\.id|c\.id (=|<)"
                r" f\.year"
            ),
            text,
        )
    ]
    assert unrelated == []
    # The reference compares them.
    related = texts(answer, "SELECT p.name FROM person p, club c WHERE p.city = c.town")
    assert any("p.city <> c.town" in text for text in related)


def test_sides_of_comparisons_have_one_order() -> None:
    assert (
        Keys("SELECT a FROM t WHERE a>b AND  c = 'x'").own
        == Keys("select a from t where b < a and 'x' = c /* y */").own
    )
    assert Keys("SELECT a FROM t WHERE a > b").own != Keys("SELECT a FROM t WHERE b > a").own
    assert (
        Keys("SELECT a FROM t WHERE a + 1 = b").own != Keys("SELECT a FROM t WHERE a + b = 1").own
    )


def test_at_most_so_many_and_the_cheapest_first() -> None:
    answer = (
        "SELECT a.name FROM person a, person b, member m, fee f WHERE a.id = b.id AND m.since < 3"
    )
    query = Query(answer, vocabulary(SCHEMA, "SELECT name FROM person", answer))
    all_of_them = edits(query)
    assert 300 < len(all_of_them) <= 2000
    assert len({edit.text for edit in all_of_them}) == len(all_of_them)
    some = edits(query, most=50)
    assert (
        len(some) == 50
        and [edit.cost for edit in some] == sorted(edit.cost for edit in all_of_them)[:50]
    )


def test_a_text_without_places_is_changed_as_it_is_written_back() -> None:
    answer = "SELECT \"name\" AS 'n' FROM person WHERE id < 3"
    query = Query.of(answer, vocabulary(SCHEMA, "SELECT name FROM person", answer))
    assert not query.is_own and any(" <= 3" in edit.text for edit in edits(query))


def test_ratest_reads_every_change(ratest_plus: Path, tmp_path: Path) -> None:
    """No change breaks the grammar, whatever stands around it."""
    (tmp_path / "schema.sql").write_text(SCHEMA)
    for name, head in (
        ("person", "id,name,city,boss"),
        ("club", "id,name,town"),
        ("member", "person,club,since"),
        ("fee", "club,year,euros"),
    ):
        (tmp_path / f"{name}.csv").write_text(head + "\n")
    more = (
        (
            "SELECT p.name FROM person p WHERE NOT (p.id = 1 OR p.city IS NULL AND NOT p.id IN (1,"
            " 2)) OR p.id BETWEEN 1 AND 3"
        ),
        (
            "SELECT x.n FROM (SELECT name AS n FROM person UNION (SELECT name FROM club EXCEPT"
            " SELECT city FROM person)) x, club c WHERE x.n = c.name INTERSECT SELECT name FROM"
            " person"
        ),
        (
            "SELECT p.name FROM person p JOIN member m ON m.person = p.id CROSS JOIN fee WHERE"
            " -p.id < (2 + 3) * euros -- end"
        ),
    )
    for number, (reference, answer) in enumerate(
        [*MADE, *((text, text) for text in more), *((more[0], text) for text in more[1:])]
    ):
        (tmp_path / "reference.sql").write_text(reference)
        made_of = made(answer, reference)
        for start in range(0, len(made_of), 256):
            some = made_of[start : start + 256]
            for at, edit in enumerate(some):
                (tmp_path / f"{at}.sql").write_text(edit.text)
            (tmp_path / "list").write_text("".join(f"{at}.sql\n" for at in range(len(some))))
            ran = subprocess.run(
                [ratest_plus, "grade", "schema.sql", ".", "reference.sql", "list"],
                cwd=tmp_path,
                capture_output=True,
                text=True,
                check=False,
            )
            assert ran.returncode == 0, ran.stderr
            for line in ran.stdout.splitlines():
                match = re.fullmatch(
                    r"([0-9]+)\.sql: refused: (syntax fault.*|unexpected.*|.*without end.*)", line
                )
                assert not match, (match[2], some[int(match[1])].text, some[int(match[1])].mistake)
