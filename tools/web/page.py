"""The page: the template with the style, the scripts, the module and the exercises in their
places."""
from __future__ import annotations

import base64
import gzip
import hashlib
import json
import re
from collections.abc import Iterator
from dataclasses import asdict, dataclass
from pathlib import Path
from string import Template

from web.failed import Failed

PARTS = Path(__file__).with_name("page")
WORKER = ("frame.js", "worker.js")
SCRIPTS = ("asker.js", "schema.js", "result.js", "draw.js", "place.js", "page.js")
# What would end a script where it is written into a page, or begin a comment there.
ENDS = re.compile(r"</script|<!--", re.IGNORECASE)


@dataclass(frozen=True)
class Table:
    name: str
    rows: str


@dataclass(frozen=True)
class Queries:
    """A pair of queries of an exercise, under the name that is chosen."""

    name: str
    reference: str
    query: str


@dataclass(frozen=True)
class Exercise:
    """The texts of a folder of examples/."""

    schema: str
    tables: tuple[Table, ...]
    queries: tuple[Queries, ...]


def page_of(top: Path, module: bytes) -> bytes:
    """The page with a WebAssembly module."""
    script = joined(SCRIPTS)
    template = Template((PARTS / "template.html").read_text(encoding="utf-8"))
    style = (
        top / "python/ratest/witness.css",
        top / "python/classroom/views/templates/style.css",
        PARTS / "page.css",
    )
    return template.substitute(
        digest=f"sha256-{base64.b64encode(hashlib.sha256(script.encode()).digest()).decode()}",
        style="".join(path.read_text(encoding="utf-8") for path in style),
        version=(top / "VERSION").read_text(encoding="utf-8").strip(),
        # A text that no parser of HTML can take for a tag.
        exercises=json.dumps(
            list(map(asdict, exercises(top / "examples"))), ensure_ascii=False
        ).replace("<", "\\u003c"),
        worker=joined(WORKER),
        module=base64.b64encode(gzip.compress(module, 9, mtime=0)).decode(),
        script=script,
    ).encode()


def joined(names: tuple[str, ...]) -> str:
    text = "".join((PARTS / name).read_text(encoding="utf-8") for name in names)
    if ENDS.search(text):
        raise Failed("a script of the page has what ends a script in HTML")
    return text


def exercises(folder: Path) -> Iterator[Exercise]:
    """Those of the folders that have a schema, and pairs of queries."""
    for schema in sorted(folder.glob("*/schema.sql")):
        found = tuple(queries(schema.parent))
        if found:
            tables = tuple(
                Table(path.stem, text_of(path)) for path in sorted(schema.parent.glob("*.csv"))
            )
            yield Exercise(text_of(schema), tables, found)


def queries(folder: Path) -> Iterator[Queries]:
    for reference in sorted(folder.glob("*/reference.sql")):
        for answer in sorted(reference.parent.glob("answers/*.sql")):
            name = f"{folder.name}, task {reference.parent.name}, answer {answer.stem}"
            yield Queries(name, text_of(reference), text_of(answer))
    if (folder / "query1.sql").exists():
        yield Queries(folder.name, text_of(folder / "query1.sql"), text_of(folder / "query2.sql"))


def text_of(path: Path) -> str:
    return path.read_text(encoding="utf-8")
