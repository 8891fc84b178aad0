"""A platform's list in YAML, of which nothing but mappings, lists and texts is read.

It is made of the parser's events, so that no tag makes an object, no `<<` multiplies what is there,
and neither its depth nor its size passes a bound. An alias stands for the same part.
"""
from __future__ import annotations

from collections.abc import Mapping

from classroom.base.errors import Fault, library

MOST_BYTES = 20_000_000
MOST_DEPTH = 30


class Open:
    """A list or a mapping whose end was not read yet."""

    def __init__(self, made: list[object] | dict[str, object]) -> None:
        self.made = made
        self.name: str | None = None  # of what follows in a mapping

    def add(self, part: object) -> None:
        if isinstance(self.made, list):
            self.made.append(part)
        elif self.name is None:
            self.name = part if isinstance(part, str) else ""
        else:
            self.made[self.name] = part
            self.name = None


def read(content: bytes) -> object:
    """The first document of a text: a text, a list or a mapping; a Fault where it is none, or
    passes a bound."""
    yaml = library("yaml", "python3-yaml")
    if len(content) > MOST_BYTES:
        raise Fault(f"more than {MOST_BYTES:,} bytes")
    top = Open([])
    opened = [top]
    anchors: dict[str, object] = {}
    try:
        for event in yaml.parse(content, Loader=getattr(yaml, "CSafeLoader", yaml.SafeLoader)):
            anchor = getattr(event, "anchor", None)
            if isinstance(event, yaml.AliasEvent):
                opened[-1].add(anchors.get(str(anchor), ""))
                continue
            if isinstance(event, yaml.ScalarEvent):
                made: object = event.value
            elif isinstance(event, yaml.SequenceStartEvent):
                made = []
            elif isinstance(event, yaml.MappingStartEvent):
                made = {}
            elif isinstance(event, (yaml.SequenceEndEvent, yaml.MappingEndEvent)):
                opened.pop()
                continue
            else:
                continue
            opened[-1].add(made)
            if anchor:
                anchors[str(anchor)] = made
            if isinstance(made, (list, dict)):
                opened.append(Open(made))
                if len(opened) > MOST_DEPTH:
                    raise Fault(f"its parts stand more than {MOST_DEPTH} deep")
    except (yaml.YAMLError, UnicodeDecodeError, ValueError, RecursionError) as fault:
        raise Fault(f"no YAML: {' '.join(str(fault).split())[:200]}") from None
    return top.made[0] if isinstance(top.made, list) and top.made else ""


def mapping(part: object) -> Mapping[str, object]:
    """The part where it is a mapping, else an empty one. Ruby writes a colon in front of names."""
    if not isinstance(part, dict):
        return {}
    return {str(name).removeprefix(":"): value for name, value in part.items()}


def text(part: object) -> str:
    return part if isinstance(part, str) else ""
