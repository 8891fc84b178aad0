"""Pages by jinja2. What they show of a witness draws the package `ratest`.

Every text goes through jinja2's escaping and through `pictures`. Templates that draw a query or a
witness import the macros of `witness.html`. """
from __future__ import annotations

from datetime import datetime, tzinfo
from pathlib import Path
from typing import TYPE_CHECKING, Any

from classroom.base.errors import library
from ratest.draw import (
    STYLES,
    AnswerRow,
    Cell,
    Drawing,
    KeptTable,
    Line,
    cell,
    cells,
    counted,
    drawing,
    drawn,
    kept_tables,
    pictures,
    sql,
)
from ratest.schema import quoted

if TYPE_CHECKING:
    import jinja2

__all__ = [
    "AnswerRow",
    "Cell",
    "Drawing",
    "KeptTable",
    "Line",
    "cell",
    "cells",
    "counted",
    "drawing",
    "environment",
    "kept_tables",
    "pictures",
    "quoted",
    "sql",
]

TEMPLATES = Path(__file__).with_name("templates")


def environment() -> jinja2.Environment:
    """The templates of this package, with escaping."""
    jinja = library("jinja2", "python3-jinja2")

    def finalize(value: Any) -> Any:
        return pictures(value) if type(value) is str else value

    made: jinja2.Environment = jinja.Environment(
        loader=jinja.FileSystemLoader(TEMPLATES),
        autoescape=True,
        trim_blocks=True,
        lstrip_blocks=True,
        undefined=jinja.StrictUndefined,
        keep_trailing_newline=True,
        finalize=finalize,
    )
    made.globals["style"] = "".join(
        path.read_text(encoding="utf-8") for path in (STYLES, TEMPLATES / "style.css")
    )
    # What it gives is escaped.
    made.globals["witness"] = lambda of: library("markupsafe", "python3-markupsafe").Markup(
        drawn(of)
    )
    made.filters["counted"] = counted
    made.filters["moment"] = moment
    return made


def moment(of: datetime, zone: tzinfo | None) -> str:
    """As `2026-11-20 at 08:00 UTC+01:00`, in a time zone, or in the machine's."""
    local = of.astimezone(zone)
    offset = local.strftime("%z")
    away = f"{offset[:3]}:{offset[3:5]}" if local.utcoffset() else ""
    return f"{local:%Y-%m-%d at %H:%M} UTC{away}"
