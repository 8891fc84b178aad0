"""A query as text, tree and places, from which the texts of changes are made without a copy of the
tree."""
from __future__ import annotations

from collections.abc import Iterator, Sequence

from sqlglot import exp

from classroom.base.errors import Fault
from classroom.edits.change import Change, Kind
from classroom.sql.scopes import Scopes, is_star, name_of
from classroom.sql.spans import Span, spans_of
from classroom.sql.tree import Node, nodes, parsed, written
from classroom.edits.vocabulary import Vocabulary
from classroom.sql.schema import spelled

Insertion = tuple[int, int, str]  # what stands between two places gets this text


class Query:
    """A query that changes are made of."""

    def __init__(self, text: str, vocabulary: Vocabulary, is_own: bool = True) -> None:
        """A Fault where sqlglot doesn't read the text, or its tree is not found in it. `is_own`
        tells that the text is the one that somebody wrote, whose places can be shown."""
        self.text = text
        self.tree = parsed(text)
        found = spans_of(text, self.tree)
        if found is None:
            raise Fault("the parts of the query are not found in its text")
        self.spans = found
        self.vocabulary = vocabulary
        self.scopes = Scopes(vocabulary.tables)
        self.is_own = is_own

    @classmethod
    def plain(cls, text: str, vocabulary: Vocabulary) -> Query:
        """Over the text as sqlglot writes it back."""
        return cls(written(parsed(text)), vocabulary, is_own=False)

    @classmethod
    def of(cls, text: str, vocabulary: Vocabulary) -> Query:
        """Over the text itself; where the tree's leaves are not its own, as it is written back."""
        try:
            return cls(text, vocabulary)
        except Fault:
            return cls.plain(text, vocabulary)

    def nodes(self) -> Iterator[Node]:
        return nodes(self.tree)

    def span(self, node: Node) -> Span:
        return self.spans.of[id(node)]

    def source(self, node: Node, insertions: Sequence[Insertion] = ()) -> str:
        """The text of a node, without the NOT that stands inside of it and is not its own."""
        begin, end = self.span(node)
        pieces = [*insertions]
        other = self.spans.inner_not.get(id(node))
        if other:
            pieces.append((other.begin, self.next_to(other.end), ""))
        made, at = [], begin
        for first, last, text in sorted(pieces):
            made += [self.text[at:first], text]
            at = last
        return "".join([*made, self.text[at:end]])

    def next_to(self, at: int) -> int:
        """Behind one blank."""
        return at + self.text[at : at + 1].isspace()

    def qualified(self, node: Node, renamed: dict[str, str] | None = None) -> str:
        """The text of a node in which each column has the name of its table before it, or another
        for it."""
        return self.source(node, list(self.qualifications(node, renamed or {})))

    def qualifications(self, node: Node, renamed: dict[str, str]) -> Iterator[Insertion]:
        for column in node.find_all(exp.Column):
            if is_star(column) or id(column) not in self.spans.of:
                continue
            table = self.scopes.source_of(column)[0]
            begin, end = self.span(column)
            if not column.args.get("table"):
                if table:
                    yield begin, begin, f"{spelled(renamed.get(table, table))}."
            elif table in renamed:
                first = self.span(column.args["table"])
                yield first.begin, first.end, spelled(renamed[table])

    def instead(
        self,
        node: Node,
        mistake: str,
        kind: Kind,
        cost: int,
        text: str,
        is_connector: bool = False,
        place: Span | None = None,
    ) -> Change:
        """A text in the place of a node, in parentheses where it would be read otherwise there."""
        where = node
        if id(node) in self.spans.inner_not and isinstance(node.parent, exp.Not):
            where = node.parent
            text = f"NOT ({text})" if is_connector else f"NOT {text}"
        elif is_connector and isinstance(node.parent, (exp.Connector, exp.Not)):
            text = f"({text})"
        span = self.span(where)
        return Change(mistake, kind, cost, span, text, place or span)


def table_in(node: Node) -> str:
    """The name of the table that a source of FROM is; empty of a query."""
    return name_of(node.this) if isinstance(node, exp.Table) else ""
