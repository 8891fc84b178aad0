"""Serves the page of `classroom mark` until it is stopped."""
from __future__ import annotations

import html
import logging
import os
import signal
import tempfile
import webbrowser
from collections.abc import Iterator, Mapping
from contextlib import contextmanager, nullcontext
from pathlib import Path

from classroom.hints.mistake import Mistake
from classroom.web.mark_pages import Keys, application
from classroom.web.marker import Marker
from classroom.web.server import LOCAL, made, stop

THREADS = 4
PAGE = '<!DOCTYPE html><meta charset="utf-8"><meta http-equiv="refresh" content="0; url={0}"><a href="{0}">marks</a>\n'


def serve(
    marker: Marker, mistakes: Mapping[str, Mistake], names: bool, port: int, browses: bool
) -> None:
    """Serves at this machine alone, and prints the address."""
    place = {"port": port}

    def address(key: str) -> str:
        return f"http://{LOCAL}:{place['port']}/?key={key}"

    keys = Keys(lambda key: print(address(key), flush=True))
    server = made(application(marker, mistakes, names, keys), THREADS, host=LOCAL, port=port)
    place["port"] = server.effective_port
    for name in ("waitress", "waitress.queue"):
        logging.getLogger(name).setLevel(logging.CRITICAL)
    signal.signal(signal.SIGTERM, stop)
    keys.tell()
    with opened(address(keys.key)) if browses and has_browser() else nullcontext():
        server.run()


def has_browser() -> bool:
    """Whether one would open in a window, and not in this terminal."""
    if not (os.environ.get("DISPLAY") or os.environ.get("WAYLAND_DISPLAY")):
        return False
    try:
        webbrowser.get()
    except webbrowser.Error:
        return False
    return True


@contextmanager
def opened(address: str) -> Iterator[None]:
    """Opens the address in the browser by a file that others can't read, as the words of a process
    are seen by everybody on the machine."""
    with tempfile.TemporaryDirectory(prefix="classroom-mark-") as folder:
        page = Path(folder) / "mark.html"
        page.write_text(PAGE.format(html.escape(address)))
        webbrowser.open(page.as_uri())
        yield
