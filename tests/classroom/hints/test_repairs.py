"""What is found for wrong answers: 80 with the place and the kind that a teacher would name, and 60
mistakes that are made in references which were first written otherwise."""
from __future__ import annotations

from collections.abc import Sequence
from pathlib import Path
from random import Random

import pytest

pytest.importorskip("sqlglot", reason="no sqlglot: apt-get install python3-sqlglot")

import cases  # noqa: E402
import judged  # noqa: E402
from compare.draw import Draw, Limits  # noqa: E402
from compare.model import schema as schema_of  # noqa: E402
from compare.query import Writer  # noqa: E402

from classroom.engines import ratest as program  # noqa: E402
from classroom.exercise import sources  # noqa: E402
from classroom.engines import sample as base  # noqa: E402
from classroom.exercise import generated as made  # noqa: E402
from classroom.sql import sqlite_schema as schema  # noqa: E402
from classroom.sql import dialect as texts  # noqa: E402
from classroom.hints.repairs import Ground, Search  # noqa: E402

WRONG, PLANTED = cases.wrong(), cases.planted()


@pytest.fixture(autouse=True)
def programs(monkeypatch: pytest.MonkeyPatch, ratest: Path, ratest_plus: Path) -> None:
    monkeypatch.setenv("RATEST", str(ratest))
    monkeypatch.setenv("RATEST_PLUS", str(ratest_plus))


def shortfall(found: Sequence[judged.Judged]) -> str:
    return "\n".join(one.told for one in found)


def test_there_are_80_wrong_answers_that_are_wrong() -> None:
    assert len(WRONG) == len(set(WRONG)) == 80 and {one.schema for one in WRONG} == set(
        cases.SCHEMAS
    )
    for one in (*WRONG, *PLANTED):
        of = judged.search(one.schema, one.reference)
        assert not of.ground.prover.agree(one.reference, [one.answer])[0], one.marked
        assert of.ground.prover.agree(one.reference, [one.reference])[0]


def test_the_places_of_the_wrong_answers() -> None:
    found = [judged.judged(one) for one in WRONG]
    right = [one for one in found if one.place_is_right]
    assert len(right) >= 0.85 * len(found), shortfall(
        [one for one in found if not one.place_is_right]
    )
    # 79 on 2026-12-01.
    assert len(right) >= 76, shortfall([one for one in found if not one.place_is_right])


def test_the_kinds_of_the_wrong_answers() -> None:
    found = [judged.judged(one) for one in WRONG]
    assert sum(one.kind_is_right for one in found) >= 74, shortfall(
        [one for one in found if not one.kind_is_right]
    )


def test_the_mistakes_of_the_wrong_answers_are_named() -> None:
    found = [judged.judged(one) for one in WRONG]
    assert sum(one.classes.best is not None for one in found) >= 72
    assert all(one.best or one.classes.best for one in found)


def test_planted_mistakes_are_repaired_at_their_place() -> None:
    assert len(PLANTED) == len(set(PLANTED)) == 60
    found = [judged.judged(one) for one in PLANTED]
    assert sum(one.best is not None for one in found) >= 57, shortfall(
        [one for one in found if one.best is None]
    )
    assert sum(one.place_is_right for one in found) >= 54, shortfall(
        [one for one in found if not one.place_is_right]
    )


@pytest.mark.parametrize("which", (WRONG, PLANTED), ids=("wrong", "planted"))
def test_no_repair_is_shown_that_larger_rows_refute(which: list[cases.Wrong]) -> None:
    shown = refuted = 0
    for one in which:
        larger = judged.larger(one.schema, one.reference)
        assert larger and all(
            sum(len(held.rows) for held in rows.pool.held) > 150 for rows in larger
        )
        wanted = [rows.answers(one.reference) for rows in larger]
        for edit in judged.judged(one).repairs.edits:
            shown += 1
            assert all(rows.passes(edit.text, want) for rows, want in zip(larger, wanted)), (
                one.marked,
                edit.mistake,
            )
        refuted += judged.judged(one).repairs.refuted
    assert shown > 100 and refuted > 0


def test_every_repair_agrees_and_every_class_does() -> None:
    """By `ratest` itself, and not the lists."""
    for one in WRONG[::8]:
        of, found = judged.search(one.schema, one.reference), judged.judged(one)
        folder = of.ground.prover.folder
        for edits, other in (
            (found.repairs.edits, one.reference),
            (found.classes.edits, one.answer),
        ):
            for edit in edits[:3]:
                (folder / "a.query").write_text(edit.text)
                (folder / "b.query").write_text(other)
                ran = program.run(
                    program.find(), ("schema.sql", ".", "a.query", "b.query"), folder=folder
                )
                assert ran.stdout == b"agree\n", (edit.text, other)


def test_the_filter_only_rejects_what_is_wrong() -> None:
    """No change that is proved to agree fails on the parts."""
    for one in WRONG[::10]:
        of = judged.search(one.schema, one.reference)
        from classroom.edits.edits import edits
        from classroom.edits.query import Query

        all_of_them = edits(Query.of(one.answer, of.words.of(one.answer)))[:250]
        agree = of.ground.prover.agree(one.reference, [edit.text for edit in all_of_them])
        for edit, agrees in zip(all_of_them, agree):
            assert not agrees or of.ground.base.passes(edit.text, of.wanted), edit.text


def test_the_same_is_found_again() -> None:
    one = WRONG[0]
    again = Search(
        Ground(judged.ground(one.schema).rows, None, judged.ground(one.schema).prover.folder),
        one.reference,
    )
    first = judged.judged(one)
    assert [edit.text for edit in again.repairs(one.answer).edits] == [
        edit.text for edit in first.repairs.edits
    ]
    assert [edit.text for edit in again.classes(one.answer).edits] == [
        edit.text for edit in first.classes.edits
    ]


def test_the_guard_of_the_exercise_refutes(tmp_path: Path) -> None:
    """Over two rows `price < 6` and `price < 5` are the same; other rows of the schema tell them
    apart."""
    text = "CREATE TABLE beer (name TEXT PRIMARY KEY, price INTEGER);"
    few, many = tmp_path / "few", tmp_path / "many"
    for folder, rows in ((few, "a,3\nb,7\n"), (many, "a,3\nb,7\nc,5\nd,4\ne,6\n")):
        folder.mkdir()
        (folder / "schema.sql").write_text(text)
        (folder / "beer.csv").write_text("name,price\n" + rows)
    reference, answer = (
        "SELECT name FROM beer WHERE price < 5",
        "SELECT name FROM beer WHERE price > 5",
    )
    work = tmp_path / "work"
    work.mkdir()
    plain = Search(Ground(sources.of_exercise(few), None, work), reference)
    plain.guards.clear()
    alone = plain.repairs(answer)
    assert not alone.is_guarded and alone.refuted == 0
    assert {"< for >", "<= for >"} <= {edit.mistake for edit in alone.edits}
    guarded = Search(Ground(sources.of_exercise(few), sources.of_exercise(many), work), reference)
    del guarded.guards[1:]
    found = guarded.repairs(answer)
    assert found.is_guarded and "< for >" in {edit.mistake for edit in found.edits}
    assert "<= for >" not in {edit.mistake for edit in found.edits} and found.refuted > 0


@pytest.mark.parametrize("name", cases.SCHEMAS)
def test_made_rows_obey_the_schema(name: str, tmp_path: Path) -> None:
    rows = judged.ground(name).rows
    for seed in ("1", "2", "3"):
        pool = made.pool_of(rows, (3, 5), ("x", "Joe's"), seed)
        assert pool is not None
        whole = base.Base(pool, 0)
        assert whole.rows == frozenset(pool.lawful) and len(whole.rows) == sum(
            len(held.rows) for held in pool.held
        )
        again = made.pool_of(rows, (3, 5), ("x", "Joe's"), seed)
        assert again and [held.rows for held in again.held] == [held.rows for held in pool.held]
        cells = [cell for held in pool.held for row in held.rows for cell in row]
        assert None in cells and ({4, 5, 6} & set(cells) or {"x", "Joe's"} & set(cells))
        # The program takes them.
        folder = tmp_path / seed
        folder.mkdir()
        for file, content in pool.files(whole.rows).items():
            (folder / file).write_bytes(content)
        query = WRONG[[one.schema for one in WRONG].index(name)].reference
        (folder / "q").write_text(query)
        ran = program.run(program.find(), ("schema.sql", ".", "q", "q"), folder=folder)
        assert ran.stdout == b"agree\n", ran.stderr


def test_parts_are_lawful() -> None:
    rows = judged.ground("school").rows
    of = base.Base(rows)
    assert (
        len(of.parts) > 20
        and of.parts[-1] == of.rows
        and list(map(len, of.parts)) == sorted(map(len, of.parts))
    )
    for part in of.parts:
        assert part <= rows.lawful
        assert all(target in part for row in part for target in rows.targets[row])


def test_dependencies_and_checks_bound_the_rows(tmp_path: Path) -> None:
    (tmp_path / "schema.sql").write_text(
        "CREATE TABLE g (k INTEGER, v INTEGER, w TEXT NOT NULL, DEPENDENCY (k) DETERMINES (v),"
        " CHECK (v < 9));"
    )
    (tmp_path / "g.csv").write_text("k,v,w\n1,1,a\n1,2,b\n2,9,c\n3,3,\n,4,d\n,5,e\n")
    pool = sources.of_exercise(tmp_path)
    assert sorted(row.number for row in base.Base(pool, 3).rows) == [0, 4, 5]
    text, dependencies = schema.for_sqlite(pool.schema.decode())
    assert text == "CREATE TABLE g (k INTEGER, v INTEGER, w TEXT NOT NULL, CHECK (v < 9));"
    assert dependencies == [schema.Dependency("g", ("k",), ("v",))]


def test_queries_as_sqlite_reads_them() -> None:
    """SQLite answers the text for it as it answers the generator's own."""
    import sqlite3

    compared = 0
    for seed in range(300):
        case = Draw(Random(seed), Limits(depth=3, rows=9)).case()
        connection = sqlite3.connect(":memory:")
        connection.executescript(schema_of(case, "sqlite"))
        connection.execute("PRAGMA foreign_keys = OFF")
        for table in case.tables:
            for row in case.rows[table.name]:
                marks = ", ".join("?" * len(row))
                try:
                    connection.execute(f'INSERT INTO "{table.name}" VALUES ({marks})', row)
                except sqlite3.IntegrityError:
                    continue
        for query in (case.first, case.second):
            try:
                own = set(connection.execute(Writer("sqlite").query(query)))
            except sqlite3.OperationalError:
                continue
            assert (
                set(connection.execute(texts.for_sqlite(Writer("ratest").query(query)))) == own
            ), seed
            compared += 1
    assert compared > 500


TRIED = (
    "SELECT s.bar, COUNT(*) AS n FROM serves s WHERE s.price < 5 GROUP BY s.bar HAVING COUNT(*) > 1"
)


@pytest.mark.parametrize(
    "answer, mistake, place",
    [
        (TRIED.replace("> 1", ">= 1"), "> for >=", "COUNT(*) >= 1"),
        (TRIED.replace("< 5", "<= 5"), "< for <=", "s.price <= 5"),
        (TRIED.replace("GROUP BY s.bar", "GROUP BY s.beer"), "s.bar for s.beer", "s.beer"),
    ],
)
def test_where_nothing_is_proved_it_is_tried(answer: str, mistake: str, place: str) -> None:
    """`ratest` reads neither query; SQLite answers both on many parts of the rows, and on the
    guards."""
    ground = judged.ground("beers")
    of = Search(ground, TRIED, is_tried=True)
    assert not ground.prover.agree(TRIED, [TRIED])[0]
    found = of.repairs(answer)
    assert found.best and (found.best.mistake, answer[slice(*found.best.place)]) == (mistake, place)
    assert found.tried == len(ground.wide.parts) > 100 and of.classes(answer).best
    from classroom.hints import recording

    record = recording.of_found(found, None)
    assert (
        record.decided_by.startswith("sqlite 3.") and "as far as was tried" in record.steps[0].text
    )
    assert "proved" not in " ".join(step.text for step in record.steps)


OUTER = (
    "SELECT d.name, COUNT(f.bar) FROM drinker d LEFT JOIN frequents f ON f.drinker = d.name GROUP"
    " BY d.name"
)


@pytest.mark.parametrize(
    "answer, mistake",
    [
        (OUTER.replace("LEFT JOIN", "JOIN"), "LEFT JOIN for JOIN"),
        (OUTER.replace("f.bar", "*"), "COUNT(f.bar) for COUNT(*)"),
        (OUTER.replace("f.drinker = ", "f.bar = "), "f.drinker for f.bar"),
    ],
)
def test_outer_joins_and_what_is_counted(answer: str, mistake: str) -> None:
    found = Search(judged.ground("beers"), OUTER, is_tried=True).repairs(answer)
    assert mistake in {edit.mistake for edit in found.edits[:3]}, [
        edit.mistake for edit in found.edits
    ]


def test_a_reference_that_sqlite_does_not_answer() -> None:
    from classroom.base.errors import Fault

    with pytest.raises(Fault, match="does not answer the reference"):
        Search(judged.ground("beers"), "SELECT nosuch(bar) FROM serves", is_tried=True)
