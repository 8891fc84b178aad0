"""What a student is told."""
from __future__ import annotations

from dataclasses import replace
from pathlib import Path

import pytest

pytest.importorskip("sqlglot", reason="no sqlglot: apt-get install python3-sqlglot")

import cases  # noqa: E402
import judged  # noqa: E402

from classroom.edits.change import Kind  # noqa: E402
from classroom.sql.tokens import tokens  # noqa: E402
from classroom.hints import steps as hints  # noqa: E402

ALL = [*cases.wrong(), *cases.planted()]
# Small words of the sentences that SQL has too; in capitals they are never told.
ENGLISH = frozenset(
    "and in is not or of as on all every some no from with table tables order by where".split()
)


@pytest.fixture(autouse=True)
def programs(monkeypatch: pytest.MonkeyPatch, ratest: Path, ratest_plus: Path) -> None:
    monkeypatch.setenv("RATEST", str(ratest))
    monkeypatch.setenv("RATEST_PLUS", str(ratest_plus))


def words(text: str) -> set[str]:
    return {token.text.lower() for token in tokens(text) if token.kind != "sign"}


def test_no_hint_has_a_token_of_the_reference() -> None:
    told = 0
    for one in ALL:
        schema = judged.ground(one.schema).schema
        secret = words(one.reference) - words(one.answer) - words(schema)
        found = judged.judged(one).repairs
        for hint in hints.hints(found, 3):
            told += 1
            shown = (
                hint.text.replace("query's", "query")
                + " "
                + (one.answer[slice(*hint.place)] if hint.place else "")
            )
            # What is written as SQL is, is a word of SQL.
            assert not {word for word in words(shown) & secret if word not in ENGLISH}, (
                hint.text,
                one.reference,
            )
            capitals = {
                token.text.lower()
                for token in tokens(hint.text)
                if token.kind == "word" and token.text.isupper() and len(token.text) > 1
            }
            assert not capitals & secret, (hint.text, one.answer)
    assert told > 300


def test_no_sentence_has_a_word_of_sql_in_capitals() -> None:
    for text in (
        *hints.SENTENCES.values(),
        hints.SOME,
        hints.NONE,
        hints.SOME_ROW,
        hints.NO_ROW,
        hints.OTHERS,
        hints.PROVED,
        hints.TRIED,
    ):
        assert not [
            word for word in text.replace(".", " ").split() if word.isupper() and len(word) > 1
        ], text
    assert set(hints.SENTENCES) | {Kind.QUANTIFIER} == set(Kind)


def test_the_steps() -> None:
    one = next(one for one in ALL if "«t.price > s.price»" in one.marked)
    found = judged.judged(one).repairs
    steps = hints.hints(found, 3)
    assert [hint.step for hint in steps] == [1, 2, 3]
    assert steps[0].text.startswith(
        "One change in the inner query's WHERE is enough: with it your query answers rightly, apart"
        " from duplicates and order, on every part of these rows."
    )
    assert steps[1].place and one.answer[slice(*steps[1].place)] == "t.price > s.price"
    assert steps[2].text == "Look at the comparison."
    assert [hint.step for hint in hints.hints(found, 2)] == [1, 2] and hints.hints(found, 0) == []
    # Without a guard, or where the text's parts are not found, only the clause is told.
    assert [hint.step for hint in hints.hints(replace(found, is_guarded=False), 3)] == [1]
    found.query.is_own = False
    try:
        assert [hint.step for hint in hints.hints(found, 3)] == [1]
    finally:
        found.query.is_own = True
    assert hints.hints(replace(found, edits=()), 3) == []
    tried = hints.hints(replace(found, tried=40), 1)[0].text
    assert "as far as was tried" in tried and "40 parts" in tried


def test_other_places_are_told() -> None:
    texts = [
        hints.hints(judged.judged(one).repairs, 1)[0].text for one in ALL if judged.judged(one).best
    ]
    assert any(text.endswith(hints.OTHERS) for text in texts) and any(
        not text.endswith(hints.OTHERS) for text in texts
    )


@pytest.mark.parametrize(
    "marked, sentence",
    [
        ("«EXISTS (SELECT * FROM item i WHERE i.product = p.id)»", hints.SOME),
        ("«name IN (SELECT l.drinker", hints.SOME_ROW),
        ("«orders o»", hints.SOME_ROW),
        ("bar = 'Joe''s' UNION", hints.SENTENCES[Kind.SET]),
    ],
)
def test_existence(marked: str, sentence: str) -> None:
    one = next(one for one in ALL if marked in one.marked)
    assert hints.hints(judged.judged(one).repairs, 3)[2].text == sentence
