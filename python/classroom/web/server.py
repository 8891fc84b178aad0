"""The server itself: waitress at a port or a Unix socket, and the teacher's page beside it."""
from __future__ import annotations

import logging
import signal
import socket
import threading
from collections.abc import Mapping
from dataclasses import dataclass
from pathlib import Path
from types import FrameType
from typing import Any

import waitress

from classroom.grading.open import Opened
from classroom.web import overview
from classroom.web.about import About
from classroom.web.app import MOST_FORM, application
from classroom.web.showing import Showing
from classroom.web.course import Course
from classroom.web.overview import Watched
from classroom.web.visitors import Visitors
from classroom.web.login import Front

# Threads beyond those that wait or run, for what is answered at once.
QUICK_THREADS = 16
CONNECTIONS = 900
LOCAL = "127.0.0.1"


@dataclass(frozen=True)
class Address:
    """Where it listens: at a Unix socket, or at a port."""

    host: str
    port: int
    socket: Path | None
    mode: int


@dataclass(frozen=True)
class Running:
    """With what it runs."""

    course: Course
    watched: Mapping[str, tuple[Opened, Path]]
    front: Front
    address: Address
    threads: int  # for questions that run or wait
    hourly: int | None
    only_verdict: bool
    frame_ancestors: tuple[str, ...]
    keep_days: int | None
    teacher_port: int | None


def serve(running: Running) -> None:
    """Serves until the process is stopped."""
    course = running.course
    seconds = course.served[0].asker.limits.seconds
    about = About(
        course.title,
        running.keep_days,
        bool(running.front.user_header),
        running.hourly,
        running.only_verdict,
        seconds,
    )
    app = application(
        course,
        Visitors(running.hourly),
        running.front,
        Showing(running.only_verdict, running.frame_ancestors),
        about,
    )
    server = made(app, running.threads + QUICK_THREADS, **listening(running.address))
    # Else each question that waits is told, with where it came from.
    for name in ("waitress", "waitress.queue"):
        logging.getLogger(name).setLevel(logging.CRITICAL)
    signal.signal(signal.SIGTERM, stop)
    if running.teacher_port is not None:
        begin_teacher(running)
    print(told(running.address, server), flush=True)
    server.run()


def made(app: Any, threads: int, **where: Any) -> Any:
    return waitress.create_server(
        app,
        threads=threads,
        connection_limit=CONNECTIONS,
        asyncore_use_poll=True,
        channel_timeout=20,
        cleanup_interval=5,
        max_request_header_size=16_384,
        max_request_body_size=MOST_FORM,
        inbuf_overflow=2 * MOST_FORM,
        # `who` decides of whom such headers are believed.
        clear_untrusted_proxy_headers=False,
        ident="classroom",
        **where,
    )


def listening(address: Address) -> dict[str, Any]:
    """The words of waitress for an address."""
    if address.socket:
        return {"unix_socket": str(address.socket), "unix_socket_perms": f"{address.mode:o}"}
    # One address, where a name has several.
    return {
        "host": socket.getaddrinfo(address.host, address.port, type=socket.SOCK_STREAM)[0][4][0],
        "port": address.port,
    }


def told(address: Address, server: Any) -> str:
    if address.socket:
        return f"unix:{address.socket}"
    host = listening(address)["host"]
    return f"http://{f'[{host}]' if ':' in str(host) else host}:{server.effective_port}/"


def begin_teacher(running: Running) -> None:
    """The teacher's page, in a thread that ends with the process."""
    watched = {
        name: Watched(opened.given, path) for name, (opened, path) in running.watched.items()
    }
    server = made(
        overview.application(running.course, watched), 2, host=LOCAL, port=running.teacher_port
    )
    print(f"teacher: http://{LOCAL}:{server.effective_port}/", flush=True)
    threading.Thread(target=server.run, daemon=True).start()


def stop(number: int, frame: FrameType | None) -> None:
    raise SystemExit(0)
