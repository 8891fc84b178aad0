"""Asks the page's module, in a browser and in node."""
from __future__ import annotations

import base64
import json
import re
import shutil
import subprocess
from collections.abc import Sequence
from dataclasses import dataclass
from pathlib import Path
from typing import Any, Protocol

from questions import Question, Reply

SCRIPTS = Path(__file__).resolve().parents[2] / "tools/web/page"
NODE = Path(__file__).with_name("node.js")
MEBIBYTE = 1 << 20
AMPLE = 1024 * MEBIBYTE
AT_ONCE = 100
SECONDS = 600
NOT_READ = 3

IN_PAGE = """
const [questions, limit, done] = arguments;
const bytes = (text) => Uint8Array.from(atob(text), (letter) => letter.charCodeAt(0));
const text = (bytes) => btoa(Array.from(bytes, (byte) => String.fromCharCode(byte)).join(""));
(async () => {
  const replies = [];
  for (const { words, files } of questions) {
    const reply = await asker.ask(words, files.map(([name, data]) => [name, bytes(data)]), limit);
    replies.push([reply.status, text(reply.out), text(reply.err)]);
  }
  done(replies);
})().catch((error) => done(String(error)));
"""


class Asking(Protocol):
    def ask(self, questions: Sequence[Question], limit: int = AMPLE) -> list[Reply]:
        ...


class Unable(Exception):
    """Why a host cannot run the module."""


def packed(questions: Sequence[Question]) -> list[dict[str, Any]]:
    return [
        {
            "words": it.words,
            "files": [
                [name, base64.b64encode(content).decode()] for name, content in it.files.items()
            ],
        }
        for it in questions
    ]


def unpacked(replies: Any) -> list[Reply]:
    assert isinstance(replies, list), replies
    return [
        Reply(status, base64.b64decode(out), base64.b64decode(err)) for status, out, err in replies
    ]


@dataclass(frozen=True)
class Browser:
    """A page in a browser."""

    driver: Any

    def ask(self, questions: Sequence[Question], limit: int = AMPLE) -> list[Reply]:
        self.driver.set_script_timeout(SECONDS)
        found: list[Reply] = []
        for at in range(0, len(questions), AT_ONCE):
            found += unpacked(
                self.driver.execute_async_script(
                    IN_PAGE, packed(questions[at : at + AT_ONCE]), limit
                )
            )
        return found


@dataclass(frozen=True)
class Node:
    """The module of a page in node, with the page's own script of questions."""

    page: Path

    def ask(self, questions: Sequence[Question], limit: int = AMPLE) -> list[Reply]:
        module = re.search(
            r'<script type="text/plain" id="module">([^<]*)</script>',
            self.page.read_text(encoding="utf-8"),
        )
        assert module
        given = json.dumps({"module": module[1], "limit": limit, "questions": packed(questions)})
        program = shutil.which("node")
        if not program:
            raise Unable("there is no node: apt-get install nodejs")
        ran = subprocess.run(
            [program, NODE, SCRIPTS / "frame.js"],
            input=given,
            capture_output=True,
            text=True,
            timeout=SECONDS,
            check=False,
        )
        if ran.returncode == NOT_READ:
            raise Unable(f"node cannot read the module: {ran.stderr.strip()}")
        assert not ran.returncode, ran.stderr
        return unpacked(json.loads(ran.stdout))
