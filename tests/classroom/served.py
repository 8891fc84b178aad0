"""A real `classroom serve` in a process of its own, and who asks it by HTTP."""
from __future__ import annotations

import html
import http.client
import os
import re
import signal
import socket
import ssl
import subprocess
import urllib.parse
from collections.abc import Iterator, Mapping
from contextlib import contextmanager
from dataclasses import dataclass
from pathlib import Path

from products import TOP

FORM = {"Content-Type": "application/x-www-form-urlencoded"}


@dataclass
class Reply:
    status: int
    headers: Mapping[str, str]
    body: str
    cookies: list[str]

    @property
    def answer(self) -> str:
        """The part of the page with the answer."""
        found = re.search(r'<section id="answer".*?</section>', self.body, re.DOTALL)
        assert found, self.body
        return found[0]

    @property
    def verdict(self) -> str:
        found = re.search(r'<h2><span class="grade [a-z -]*">(.*?)</span>', self.answer, re.DOTALL)
        return html.unescape(found[1]) if found else ""


class AtSocket(http.client.HTTPConnection):
    """A connection to a Unix socket."""

    def __init__(self, path: Path) -> None:
        super().__init__("localhost", timeout=30)
        self.path = path

    def connect(self) -> None:
        self.sock = socket.socket(socket.AF_UNIX)
        self.sock.settimeout(self.timeout)
        self.sock.connect(str(self.path))


class Server:
    """A running one."""

    def __init__(
        self,
        process: subprocess.Popen[str],
        port: int,
        errors: Path,
        is_tls: bool = False,
        socket_path: Path | None = None,
    ) -> None:
        self.process, self.port, self.errors, self.is_tls, self.socket_path = (
            process,
            port,
            errors,
            is_tls,
            socket_path,
        )
        self.tokens: dict[tuple[object, ...], str] = {}

    def connection(self) -> http.client.HTTPConnection:
        if self.socket_path:
            return AtSocket(self.socket_path)
        if self.is_tls:
            return http.client.HTTPSConnection(
                "127.0.0.1", self.port, timeout=30, context=ssl._create_unverified_context()
            )
        return http.client.HTTPConnection("127.0.0.1", self.port, timeout=30)

    def send(
        self, method: str, path: str, body: bytes | None = None, headers: Mapping[str, str] = {}
    ) -> Reply:
        connection = self.connection()
        try:
            connection.request(method, path, body, dict(headers))
            got = connection.getresponse()
            text = got.read().decode()
            return Reply(
                got.status, dict(got.getheaders()), text, got.headers.get_all("Set-Cookie") or []
            )
        finally:
            connection.close()

    def token(self, headers: Mapping[str, str] = {}, at: str = "/") -> str:
        """That of the forms of a page, which is asked for once for the same visitor."""
        key = (at, *sorted(headers.items()))
        if key not in self.tokens:
            found = re.search(
                'name="token" value="([^"]*)"', self.send("GET", at, None, headers).body
            )
            if not found:
                return ""
            self.tokens[key] = found[1]
        return self.tokens[key]

    def post(self, headers: Mapping[str, str] = {}, at: str = "/", **fields: str | int) -> Reply:
        """The answer to a form of the page."""
        body = urllib.parse.urlencode({"token": self.token(headers, at), **fields}).encode()
        return self.send("POST", at, body, {**FORM, **headers})

    def ask(
        self, task: str, query: str, headers: Mapping[str, str] = {}, at: str = "/", do: str = "ask"
    ) -> Reply:
        return self.post(headers, at, task=task, query=query, do=do)

    def hint(
        self, task: str, query: str, step: int, headers: Mapping[str, str] = {}, at: str = "/"
    ) -> Reply:
        return self.post(headers, at, task=task, query=query, do="hint", step=step)

    # The port of the teacher's page, where there is one.
    teacher = 0

    def family(self) -> list[int]:
        """The processes that the server started and that still run."""
        found = []
        for path in Path("/proc").glob("[0-9]*/stat"):
            try:
                parts = path.read_text().rpartition(")")[2].split()
            except OSError:
                continue
            if int(parts[1]) == self.process.pid:
                found.append(int(path.parent.name))
        return found

    def trials(self) -> list[int]:
        """Of its processes those that fork what a database tries, and stay."""
        found = []
        for process in self.family():
            try:
                words = Path(f"/proc/{process}/cmdline").read_bytes().split(b"\0")
            except OSError:
                continue
            if any(word.endswith(b"engines/child.py") for word in words):
                found.append(process)
        return found

    def resident(self, process: int = 0) -> int:
        """Bytes of the server itself, or of one of its processes."""
        return int(
            Path(f"/proc/{process or self.process.pid}/statm").read_text().split()[1]
        ) * os.sysconf("SC_PAGE_SIZE")

    def processor(self, process: int = 0) -> tuple[float, float]:
        """Seconds of the server itself, or of one of its processes, and of what it ran and waited
        for."""
        parts = (
            Path(f"/proc/{process or self.process.pid}/stat").read_text().rpartition(")")[2].split()
        )
        user, system, user_of_others, system_of_others = (
            int(part) / os.sysconf("SC_CLK_TCK") for part in parts[11:15]
        )
        return user + system, user_of_others + system_of_others

    def kill(self) -> None:
        self.process.kill()
        self.process.wait()

    def stop(self) -> int:
        """Its exit status."""
        self.process.send_signal(signal.SIGTERM)
        return self.process.wait(30)


@contextmanager
def serving(
    exercise: Path,
    *words: str,
    ratest: Path | None = None,
    errors: str | None = "",
    socket_path: Path | None = None,
    tries: bool = False,
    port: int = 0,
) -> Iterator[Server]:
    """Serves a course at a free port, at this one or at a socket, and stops; then standard error has to be just
    `errors`, unless the test looks at it itself (None). Nothing is tried by a database, unless the test says so.
    """
    words = words if tries else ("--only-proved", *words)
    path = exercise.parent / "errors"
    # What a server leaves that is killed goes with the test's folder.
    environment = {
        **os.environ,
        "SECRET_OF_THE_SERVER": "not for children",
        "TMPDIR": str(exercise.parent),
        **({"RATEST": str(ratest)} if ratest else {}),
    }
    place = ["--socket", str(socket_path)] if socket_path else ["--port", str(port)]
    with open(path, "w") as file:
        process = subprocess.Popen(
            [str(TOP / "classroom"), "serve", str(exercise), *place, *words],
            stdin=subprocess.DEVNULL,
            stdout=subprocess.PIPE,
            stderr=file,
            text=True,
            env=environment,
        )
    try:
        assert process.stdout
        line = process.stdout.readline()
        teacher = re.fullmatch(r"teacher: http://127\.0\.0\.1:([0-9]+)/\n", line)
        line = process.stdout.readline() if teacher else line
        found = re.fullmatch(r"http://127\.0\.0\.1:([0-9]+)/\n|unix:.*\n", line)
        assert found, path.read_text()
        server = Server(process, int(found[1] or 0), path, socket_path=socket_path)
        server.teacher = int(teacher[1]) if teacher else 0
        yield server
        if process.returncode is None:
            assert process.poll() is None and server.stop() == 0
        assert errors is None or path.read_text() == errors
    finally:
        process.kill()
        process.wait()
        if process.stdout:
            process.stdout.close()
