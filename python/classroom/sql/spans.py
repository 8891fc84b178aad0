"""Where the nodes of sqlglot's tree stand in the text that it was read from.

sqlglot's nodes have no places, and those of its tokens are wrong behind texts. So the leaves of the
tree (names, constants, NULL and stars) are laid beside the own tokens, in the order of the text; a
node's span is that of its leaves, with the words and the parentheses that belong to it. """
from __future__ import annotations

from collections.abc import Iterator
from dataclasses import dataclass, field
from typing import NamedTuple, Optional

from sqlglot import exp

from classroom.sql.tokens import Token, content, tokens
from classroom.sql.tree import SETS, Node

# Words that are no leaves, where no leaf has them as its name.
KEYWORDS = frozenset(
    "select distinct all from where and or not exists in is between union except intersect join"
    " inner left right full outer cross natural on using as group by having order asc desc nulls"
    " first last limit offset with recursive case when then else end cast like ilike glob escape"
    " any some over partition rows range unbounded preceding following current row filter values"
    " fetch next only ties collate interval extract integer int bigint smallint tinyint text char"
    " character varchar varying real float double precision numeric decimal boolean bool date time"
    " timestamp datetime current_date current_time current_timestamp true false isnull notnull"
    " regexp similar to for lateral at zone without".split()
)
# The parts of these nodes in the order of the text; of the others it is that of their arguments.
ORDER = {
    exp.Column: ("table", "this"),
    exp.Table: ("catalog", "db", "this", "alias"),
    exp.CTE: ("alias", "this"),
    exp.Subquery: ("with", "this", "alias"),
    exp.Select: (
        "with",
        "distinct",
        "expressions",
        "from",
        "joins",
        "laterals",
        "where",
        "group",
        "having",
        "qualify",
        "windows",
        "order",
        "limit",
        "offset",
    ),
}
SET_ORDER = ("with", "this", "expression", "order", "limit", "offset")
# Where NOT may stand behind the first operand.
INFIX = (exp.In, exp.Is, exp.Between, exp.Like, exp.ILike)
BEFORE_JOIN = ("natural", "inner", "left", "right", "full", "outer", "cross", "join")


class Span(NamedTuple):
    """Characters of the text, from the first to before the last."""

    begin: int
    end: int


@dataclass
class Spans:
    """The spans of a tree by `id` of its nodes."""

    of: dict[int, Span] = field(default_factory=dict)
    # The NOT inside of a node's span that is not the node's own: of `IN` in `a NOT IN (..)`.
    inner_not: dict[int, Span] = field(default_factory=dict)


def spans_of(text: str, tree: Node) -> Spans | None:
    """None where the leaves are not those of the text."""
    walk = _Walk(tokens(text))
    try:
        walk.span(tree)
    except (_Other, IndexError):
        return None
    if not all(walk.is_skipped(at) for at in range(walk.at, len(walk.tokens))):
        return None
    found = walk.tokens
    return Spans(
        {
            node: Span(found[first].begin, found[last].end)
            for node, (first, last) in walk.spans.items()
        },
        {node: Span(found[at].begin, found[at].end) for node, at in walk.inner_not.items()},
    )


class _Other(Exception):
    """The tree's next leaf is not that of the text."""


Range = tuple[int, int]


class _Walk:
    def __init__(self, found: list[Token]) -> None:
        self.tokens = found
        self.at = 0  # the next token
        self.spans: dict[int, Range] = {}  # first and last token
        self.inner_not: dict[int, int] = {}
        self.taken: set[int] = set()  # the NOTs that have a node

    def word(self, at: int) -> str:
        return self.tokens[at].word if 0 <= at < len(self.tokens) else ""

    def is_skipped(self, at: int) -> bool:
        token = self.tokens[at]
        if token.kind == "word":
            return token.word in KEYWORDS or self.word(at + 1) == "("
        return token.kind == "sign"

    def leaf(self, node: Node) -> Range:
        while not fits(node, self.tokens[self.at], self.word(self.at + 1)):
            if not self.is_skipped(self.at):
                raise _Other
            self.at += 1
        self.at += 1
        return self.at - 1, self.at - 1

    def span(self, node: Node) -> Optional[Range]:
        found = self.leaf(node) if is_leaf(node) else self.joined(node)
        if found:
            self.spans[id(node)] = found
        return found

    def joined(self, node: Node) -> Optional[Range]:
        """From the first to the last part of a node, with its own words."""
        ranges = []
        begin = self.at
        for part in self.parts(node):
            found = self.span(part)
            if found:
                ranges.append(found)
        if not ranges:
            return None
        first, last = min(one[0] for one in ranges), max(one[1] for one in ranges)
        return self.widened(node, first, last, begin)

    def parts(self, node: Node) -> Iterator[Node]:
        order = ORDER.get(type(node)) or (SET_ORDER if isinstance(node, SETS) else ())
        for key in [*order, *(key for key in node.args if key not in order)]:
            if key == "from" and isinstance(node, exp.Select):
                yield from self.sources(node)
            elif not (key == "joins" and isinstance(node, exp.Select)):
                yield from children(node.args.get(key))

    def sources(self, select: Node) -> Iterator[Node]:
        """FROM's sources and its joins as they take turns: sqlglot keeps two lists."""
        begin = select.args.get("from")
        if not begin:
            return
        first = self.at
        listed, joins = list(begin.expressions), list(select.args.get("joins") or [])
        yield listed.pop(0)
        while listed or joins:
            at = self.at
            while self.word(at) == ")":
                at += 1
            yield listed.pop(0) if listed and (not joins or self.word(at) == ",") else joins.pop(0)
        own = [
            self.spans[id(part)]
            for part in (*begin.expressions, *(select.args.get("joins") or []))
            if id(part) in self.spans
        ]
        begins = min(one[0] for one in own)
        while begins > first and self.word(begins) != "from":
            begins -= 1
        self.spans[id(begin)] = (begins, max(one[1] for one in own))

    def widened(self, node: Node, first: int, last: int, begin: int) -> Range:
        """With the words and parentheses that belong to a node."""
        if isinstance(node, exp.Select):
            opening = "with" if node.args.get("with") else "select"
            while self.word(first) != opening:
                first -= 1
                if first < 0:
                    raise _Other
        elif isinstance(node, exp.Where):
            first -= self.word(first - 1) == "where"
        elif isinstance(node, exp.Not):
            first = self.negation(node, first)
        elif isinstance(node, (exp.Exists, exp.All, exp.Any)):
            first, last = self.inside(first, last)
            first -= self.word(first - 1) in ("exists", "all", "any", "some")
        elif isinstance(node, (exp.Paren, exp.Subquery, exp.Tuple)) and not node.args.get("alias"):
            first, last = self.inside(first, last)
        elif isinstance(node, exp.In) and self.word(last + 1) == ")":
            last += 1
        elif isinstance(node, exp.Neg):
            first -= self.word(first - 1) == "-"
        elif isinstance(node, exp.Join):
            while self.word(first - 1) in BEFORE_JOIN:
                first -= 1
        elif isinstance(node, (exp.Group, exp.Order)):
            first -= 2 if self.word(first - 1) == "by" else 0
        elif isinstance(node, (exp.Having, exp.Limit, exp.Offset)):
            first -= self.word(first - 1) in ("having", "limit", "offset")
        elif isinstance(node, exp.Ordered):
            last += self.word(last + 1) in ("asc", "desc")
        elif isinstance(node, exp.Distinct):
            first -= self.word(first - 1) == "distinct"
        elif isinstance(node, exp.Case):
            first, last = self.outward(first, "case", begin), last + (self.word(last + 1) == "end")
        elif isinstance(node, exp.Cast):
            first, last = self.outward(first, "cast", begin), last + 1
            while (
                last + 1 < len(self.tokens)
                and self.word(first) == "cast"
                and self.word(last) != ")"
            ):
                last += 1
        elif (
            isinstance(node, exp.Func)
            and self.word(first - 1) == "("
            and self.word(last + 1) == ")"
        ):
            first, last = first - 2, last + 1
        return self.balanced(first, last)

    def negation(self, node: Node, first: int) -> int:
        inner = node.this
        if isinstance(inner, INFIX) and id(inner) in self.spans and id(inner.this) in self.spans:
            at = self.spans[id(inner.this)][1] + 1
            at += isinstance(inner, exp.Is) and self.word(at) == "is"
            if self.word(at) == "not" and at not in self.taken:
                self.taken.add(at)
                self.inner_not[id(inner)] = at
                return first
        if self.word(first - 1) == "not":
            self.taken.add(first - 1)
            return first - 1
        return first

    def inside(self, first: int, last: int) -> Range:
        if self.word(first - 1) == "(" and self.word(last + 1) == ")":
            return first - 1, last + 1
        return first, last

    def outward(self, first: int, word: str, least: int) -> int:
        at = first
        while at > least and self.word(at) != word:
            at -= 1
        return at if self.word(at) == word else first

    def balanced(self, first: int, last: int) -> Range:
        """Wider where a parenthesis in it has its other one outside."""
        depth = low = 0
        for at in range(first, last + 1):
            depth += (self.word(at) == "(") - (self.word(at) == ")")
            low = min(low, depth)
        while low < 0 and first > 0:
            first -= 1
            step = (self.word(first) == "(") - (self.word(first) == ")")
            low, depth = low + step, depth + step
        while depth > 0 and last + 1 < len(self.tokens):
            last += 1
            depth += (self.word(last) == "(") - (self.word(last) == ")")
        return first, last


def children(value: object) -> Iterator[Node]:
    for child in value if isinstance(value, list) else [value]:
        if isinstance(child, Node):
            yield child


def is_leaf(node: Node) -> bool:
    return isinstance(node, (exp.Identifier, exp.Literal, exp.Null, exp.Star, exp.Boolean))


def fits(node: Node, token: Token, following: str) -> bool:
    """Whether a token is a leaf of the tree; `following` is what stands behind it."""
    if isinstance(node, exp.Identifier):
        name = str(node.this)
        if node.args.get("quoted"):
            return token.kind == "quoted" and content(token) == name
        return token.kind == "word" and token.text.lower() == name.lower()
    if isinstance(node, exp.Literal):
        if node.is_string:
            return token.kind == "text" and content(token) == str(node.this)
        return token.kind == "number" and token.text == str(node.this)
    if isinstance(node, exp.Star):
        return token.text == "*"
    if isinstance(node, exp.Boolean):
        return token.word == ("true" if node.this else "false")
    return token.word == "null"
