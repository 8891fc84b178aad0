"""The child's side of a call within limits: it reads a request on standard input and writes the
reply."""
from __future__ import annotations

import resource
import sys
from pathlib import Path

from ratest import library

MEGABYTE = 1_000_000
# The statuses where the request is malformed, and where the library can't be loaded.
MALFORMED, NO_LIBRARY = 64, 65


def main(path: str, megabytes: str) -> int:
    try:
        library.loaded(Path(path))
    except OSError:
        return NO_LIBRARY
    most = int(megabytes) * MEGABYTE
    resource.setrlimit(resource.RLIMIT_CORE, (0, 0))
    resource.setrlimit(resource.RLIMIT_AS, (most, most))
    try:
        reply = library.answered(sys.stdin.buffer.read(), Path(path))
    except ValueError:
        return MALFORMED
    sys.stdout.buffer.write(reply)
    return 0
