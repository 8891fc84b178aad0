"""Each node of a query's tree is found in the text that it was read from."""
from __future__ import annotations

from random import Random

import pytest
from compare.draw import Draw, Limits
from compare.query import Writer

sqlglot = pytest.importorskip("sqlglot", reason="no sqlglot: apt-get install python3-sqlglot")
hypothesis = pytest.importorskip(
    "hypothesis", reason="no hypothesis: apt-get install python3-hypothesis"
)

from hypothesis import strategies  # noqa: E402
from sqlglot import exp  # noqa: E402

from classroom.sql import spans  # noqa: E402
from classroom.sql import tokens  # noqa: E402
from classroom.sql.tree import SETS, Node, bare, nodes, parsed, regrouped, written  # noqa: E402

# Nodes that stand for themselves nowhere, and what makes a query of their text.
AROUND = {
    exp.Where: "SELECT * FROM t {}",
    exp.From: "SELECT * {}",
    exp.Join: "SELECT * FROM t {}",
    exp.Table: "SELECT * FROM {}",
    exp.Alias: "SELECT {}",
    exp.Group: "SELECT * FROM t {}",
    exp.Having: "SELECT * FROM t GROUP BY a {}",
    exp.Order: "SELECT * FROM t {}",
    exp.Limit: "SELECT * FROM t {}",
    exp.Offset: "SELECT * FROM t LIMIT 1 {}",
}
PARTS = (
    exp.TableAlias,
    exp.Distinct,
    exp.Ordered,
    exp.If,
    exp.DataType,
    exp.With,
    exp.CTE,
    exp.Identifier,
    exp.Star,
)
# Texts as students write them, also such that `ratest` doesn't read.
TEXTS = (
    (
        "select a,b from t where a not in(select b from u where m='it''s') and b is not null -- and"
        " so on"
    ),
    (
        "SELECT t.a FROM t JOIN u ON t.a=u.a, v AS w WHERE (t.a, t.b) IN (SELECT 1, 2) OR NOT (t.a"
        " BETWEEN 1 AND 2)"
    ),
    (
        "SELECT t.a FROM t INNER JOIN u ON (t.a = u.a) CROSS JOIN v WHERE t.b NOT BETWEEN -1 AND (2"
        " + 3) * -(4)"
    ),
    "SELECT a FROM t WHERE NOT NOT a IS NOT NULL AND NOT b NOT IN (1, 2) AND NOT (NOT (a = 1))",
    "(SELECT a FROM t) EXCEPT (SELECT b FROM u UNION SELECT c FROM v) INTERSECT SELECT d FROM w;",
    "SELECT a FROM t UNION SELECT a FROM u EXCEPT SELECT a FROM v INTERSECT SELECT a FROM w",
    (
        'SELECT "Select", t."from" FROM "Odd name" AS t /* where */ WHERE "Select" <> \'where\' AND'
        " n = ''"
    ),
    (
        "SELECT q.x FROM (SELECT a AS x, b FROM t WHERE a = 1) q, (SELECT * FROM u) AS r WHERE q.x"
        " = r.a"
    ),
    (
        "SELECT COUNT(*), COUNT(DISTINCT a), SUM(a + 1) AS s FROM t LEFT JOIN u USING (a) GROUP BY"
        " a, b HAVING COUNT(*) > 2"
    ),
    "SELECT a FROM t WHERE a LIKE 'x%' AND n NOT LIKE '%y' ORDER BY a DESC, b LIMIT 3 OFFSET 1",
    (
        "WITH q AS (SELECT a FROM t), r AS (SELECT a FROM q WHERE a > 1) SELECT DISTINCT a FROM q"
        " WHERE a >= ALL (SELECT b FROM u)"
    ),
    "SELECT CASE WHEN a = 1 THEN 'x' ELSE n END, CAST(a AS INTEGER) FROM t NATURAL JOIN u",
    (
        "SELECT t.* FROM t WHERE EXISTS(SELECT 1 FROM u WHERE u.a = t.a AND EXISTS (SELECT * FROM"
        " v)) AND 1 = (SELECT MAX(b) FROM u)"
    ),
)


def check(text: str) -> int:
    """Reads each span of a text back; gives how many there were."""
    tree = parsed(text)
    places = spans.spans_of(text, tree)
    assert places is not None, text
    count = 0
    for node in nodes(tree):
        span = places.of.get(id(node))
        if span is None:
            assert not any(
                spans.is_leaf(part) for part in nodes(node)
            ), f"{written(node)} of {text}"
            continue
        if isinstance(node, PARTS) or id(node) in places.inner_not:
            continue
        count += 1
        own = text[span.begin : span.end]
        assert meaning(read(node, own)) == meaning(node), f"{own!r} for {written(node)} of {text}"
    for node in nodes(tree):
        inner = places.inner_not.get(id(node))
        if inner:
            span = places.of[id(node)]
            own = text[span.begin : inner.begin] + text[inner.end : span.end]
            assert meaning(read(node, own)) == meaning(node)
            assert isinstance(node.parent, exp.Not) and places.of[id(node.parent)] == span
            count += 1
    return count


def read(node: Node, own: str) -> Node:
    around = AROUND.get(type(node))
    if around is None:
        return regrouped(sqlglot.parse_one(own))
    whole = sqlglot.parse_one(around.format(own))
    found: Node = next(whole.find_all(type(node)))
    return found


def meaning(node: Node) -> str:
    """A node as text, parentheses around it aside."""
    node = bare(node)
    while (
        isinstance(node, exp.Subquery)
        and not node.args.get("alias")
        and isinstance(node.this, (exp.Select, *SETS))
    ):
        node = node.this
    return written(node)


@pytest.mark.parametrize("text", TEXTS)
def test_each_span_reads_back(text: str) -> None:
    assert check(text) > 5


@hypothesis.settings(max_examples=300, deadline=None, database=None)  # type: ignore[misc]
@hypothesis.given(strategies.integers(0, 2**32))  # type: ignore[misc]
def test_each_span_of_a_random_query_reads_back(seed: int) -> None:
    case = Draw(Random(seed), Limits(depth=3)).case()
    for query in (case.first, case.second):
        check(spaced(Writer("ratest").query(query), seed))


def spaced(text: str, seed: int) -> str:
    """A text with other white space and comments between its tokens."""
    chance = Random(seed)
    gaps = (" ", " ", "\n", " /* ' */ ", ' -- "\n')
    return "".join(f"{chance.choice(gaps)}{token.text}" for token in tokens.tokens(text))


def test_a_text_that_is_not_the_tree_s_has_no_places() -> None:
    assert (
        spans.spans_of("SELECT a FROM t WHERE b = 1", parsed("SELECT a FROM t WHERE c = 1")) is None
    )
    assert (
        spans.spans_of(
            "SELECT a FROM t WHERE b = 1 AND c = 2", parsed("SELECT a FROM t WHERE b = 1")
        )
        is None
    )
    assert spans.spans_of("SELECT a FROM t", parsed("SELECT a FROM t WHERE b = 1")) is None


def test_tokens_know_their_places() -> None:
    text = "a<>'it''s' -- x\n >=\"q\"\"\" 12.5 /* 'y */ !=_b"
    found = tokens.tokens(text)
    assert [token.text for token in found] == [
        "a",
        "<>",
        "'it''s'",
        ">=",
        '"q"""',
        "12.5",
        "!=",
        "_b",
    ]
    assert all(text[token.begin : token.end] == token.text for token in found)
    assert [tokens.content(token) for token in found][2:5:2] == ["it's", 'q"']
    assert tokens.canonical(tokens.tokens("A /* x */ != 'B'")) == "a <> 'B'"
