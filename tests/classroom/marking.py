"""A real page of `classroom mark` in a process of its own, a class for it, and who asks it by
HTTP."""
from __future__ import annotations

import html
import http.client
import os
import re
import shutil
import signal
import subprocess
import urllib.parse
from collections.abc import Iterator
from contextlib import contextmanager
from pathlib import Path

from products import TOP, classroom

FORM = {"Content-Type": "application/x-www-form-urlencoded"}
HEADER = "task,student,text,mistake,outcome,points,comment,rule,by,time\n"
# Each is a group of its own.
NOT_READ = tuple(f"What is meant by question {at}?" for at in range(4))


class Page:
    """A running one."""

    def __init__(self, process: subprocess.Popen[str], address: str) -> None:
        self.process = process
        self.address = address
        found = re.fullmatch(r"http://127\.0\.0\.1:([0-9]+)/\?key=([\w-]+)", address)
        assert found, address
        self.port, self.key = int(found[1]), found[2]
        self.cookie = ""

    def ask(
        self, method: str, path: str, body: str | None = None, **headers: str
    ) -> tuple[int, http.client.HTTPMessage, str]:
        asked = http.client.HTTPConnection("127.0.0.1", self.port, timeout=60)
        sent = {"Cookie": self.cookie, **({} if body is None else FORM)}
        sent.update({name.replace("_", "-"): value for name, value in headers.items()})
        asked.request(method, path, body, sent)
        reply = asked.getresponse()
        text = reply.read().decode()
        asked.close()
        return reply.status, reply.headers, text

    def enter(self) -> None:
        """Exchanges the key for the cookie."""
        status, headers, _ = self.ask("GET", f"/?key={self.key}")
        assert (status, headers["Location"]) == (303, "/")
        self.cookie = headers["Set-Cookie"].partition(";")[0]

    def get(self, path: str) -> str:
        status, _, text = self.ask("GET", path)
        assert status == 200, text
        return text

    def send(self, path: str, **fields: str) -> tuple[int, str, str]:
        """Sends the form of a page with these fields; gives the status, where it leads, and the
        page that came."""
        shown = self.get(path)
        hidden = dict(re.findall(r'<input type="hidden" name="(\w+)" value="([^"]*)">', shown))
        body = urllib.parse.urlencode({**hidden, **fields})
        status, headers, text = self.ask("POST", path, body)
        return status, headers.get("Location", ""), html.unescape(text)


@contextmanager
def marking(folder: Path, *words: str) -> Iterator[Page]:
    process = subprocess.Popen(
        [TOP / "classroom", "mark", folder, "--no-browser", *words],
        stdout=subprocess.PIPE,
        stderr=subprocess.PIPE,
        encoding="utf-8",
        env={**os.environ, "PYTHONUNBUFFERED": "1"},
    )
    assert process.stdout and process.stderr
    address = process.stdout.readline().strip()
    try:
        assert address, process.stderr.read()
        yield Page(process, address)
    finally:
        if process.poll() is None:
            process.send_signal(signal.SIGTERM)
        process.wait(60)
        process.stdout.close()
        process.stderr.close()


def texts_of(task: str) -> list[str]:
    """Eight, each of another group."""
    source = TOP / "examples/beers" / task
    # Of tasks 1 and 3 two wrong answers make the same mistake.
    names = ("a", "c") if task in "13" else ("a", "b", "c")
    wrong = [(source / f"answers/{name}.sql").read_text() for name in names]
    wrong += ["SELECT name FROM drinker"] * (task in "13")
    return [(source / "reference.sql").read_text(), *wrong, *NOT_READ]


def text_of(student: int, task: str) -> str:
    """What a student handed in; the last text is the most frequent."""
    texts = texts_of(task)
    return texts[min((student * 7 + int(task)) % 11, 7)]


def make(folder: Path, students: int = 120) -> Path:
    """A class over the tasks of examples/beers, graded by no database."""
    shutil.copytree(
        TOP / "examples/beers", folder, ignore=shutil.ignore_patterns("results", "answers")
    )
    for task in "12345":
        (folder / task / "answers").mkdir()
        for student in range(students):
            path = folder / task / f"answers/s{student:03}.sql"
            path.write_text(text_of(student, task))
    assert classroom("grade", folder, "--only-proved").returncode == 1
    return folder
