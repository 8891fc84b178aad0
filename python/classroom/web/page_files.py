"""The style and the script of all pages: one file each, which a browser keeps."""
from __future__ import annotations

from collections.abc import Mapping
from typing import NamedTuple

import flask

from classroom.exercise.exercise import digest
from classroom.views import draw
from classroom.web import codemirror

STYLE, SCRIPT = "ask.css", "ask.js"


class PageFile(NamedTuple):
    """One of them."""

    name: str
    content: bytes
    kind: str

    @property
    def link(self) -> str:
        """Its address below the top, which is another one where its content is."""
        return f"{self.name}?{digest(self.content)[:12]}"

    def response(self) -> flask.Response:
        response = flask.Response(self.content, mimetype=self.kind)
        response.headers["Cache-Control"] = "public, max-age=2592000"
        return response


def page_files(style: str) -> Mapping[str, PageFile]:
    """Both, by their names; `style` is that of all pages. The editor's are in them where it is
    installed."""
    own = {
        name: (draw.TEMPLATES / name).read_text(encoding="utf-8")
        for name in (STYLE, SCRIPT, "editor.js")
    }
    made = (
        PageFile(STYLE, f"{codemirror.style()}{style}{own[STYLE]}".encode(), "text/css"),
        PageFile(
            SCRIPT,
            f"{codemirror.script()}{own['editor.js']}{own[SCRIPT]}".encode(),
            "text/javascript",
        ),
    )
    return {one.name: one for one in made}
