"""What a call does where no proved program takes it over at once."""
from __future__ import annotations

import fcntl
import os
import shutil
import signal
import sys
import time
from collections.abc import Callable

from launcher import prove, stopping, texts, toolchain, unproved
from launcher.sources import Program

NOT_BUILT = 70
USAGE_STATUS = 2


class Failed(Exception):
    """No program could be built, for this reason."""


def answer(program: Program, words: list[str], is_build: bool) -> int:
    """Answers the words; gives the status."""
    if words[:1] in (["--help"], ["-h"]) or words[1:] in (["--help"], ["-h"]):
        return show(texts.launcher_help(program.top, program.name))
    if words[:1] == ["--version"]:
        return show(texts.version(program))
    if not words and not is_build:
        sys.stderr.write(texts.usage(program.top, program.name))
        return USAGE_STATUS
    try:
        with stopping.stoppable():
            if is_build:
                build_proved(program)
            elif not program.is_built(program.proved):
                build_unproved(program)
    except stopping.Stopped as stopped:
        program.say("stopped; what is proved stays so")
        stopping.end_by(stopped.number)
    except Failed as failed:
        program.say(str(failed))
        return NOT_BUILT
    if not words:
        return 0
    if program.is_built(program.proved) or is_build:
        program.take_over(words)
    program.say(
        "not proved: this build has run-time checks in place of proofs; "
        f"{program.called} --build proves and builds the program, {prove.expected(program)}"
    )
    return unproved.run(program, words)


def show(text: str) -> int:
    """Writes the text to standard output; who reads no more of it ends this quietly."""
    signal.signal(signal.SIGPIPE, signal.SIG_DFL)
    sys.stdout.write(text)
    return 0


def build_proved(program: Program) -> None:
    if program.is_built(program.proved):
        program.say("is proved and built")
        return
    build(
        program,
        program.proved,
        program.crates_file,
        prove.make,
        (
            f"proves and builds the program, {len(program.crate_lines())} crates,"
            f" {prove.expected(program)}"
        ),
        "it could not be proved and built",
    )


def build_unproved(program: Program) -> None:
    if program.is_built(program.unproved):
        return
    instead = f"{program.called} --build proves and builds it"
    try:
        build(
            program,
            program.unproved,
            os.path.join(program.top, "crates", program.name, "src", "main.rt"),
            unproved.make,
            (
                "is not proved and built here: builds it without proofs first, in a minute or two "
                "on four idle cores"
            ),
            f"it could not be built without proofs; {instead}",
        )
    except unproved.NotThere:
        raise Failed(
            "`rt try` built it without proofs, but the file is not where this toolchain is known to"
            " put it; " + instead
        ) from None


def build(
    program: Program,
    path: str,
    lock: str,
    make: Callable[[Program, str, str], bool],
    does: str,
    failed: str,
) -> None:
    """Makes the build of the program at `path` by `make`, in a folder of its own, so that an
    interrupt leaves nothing behind. One call at a time makes it, and others wait."""
    if not shutil.which("rt"):
        raise Failed(toolchain.missing(program.top))
    with open(lock, "rb") as held:
        try:
            fcntl.flock(held, fcntl.LOCK_EX | fcntl.LOCK_NB)
        except BlockingIOError:
            program.say("waiting for another build")
            fcntl.flock(held, fcntl.LOCK_EX)
        if program.is_built(path):
            return
        warning = toolchain.other(program.top)
        if warning:
            program.say(warning)
        need_room(path)
        program.say(does)
        with stopping.temporary_folder() as folder:
            log = os.path.join(folder, "log")
            started = time.time_ns()
            if not make(program, folder, log):
                with open(log, encoding="utf-8", errors="replace") as file:
                    shutil.copyfileobj(file, sys.stderr)
                raise Failed(failed)
            put(os.path.join(folder, "program"), path, started)


def need_room(path: str) -> None:
    """Tells before anything is built where a file cannot be kept; makes no folder yet."""
    folder = os.path.dirname(path)
    while not os.path.exists(folder):
        folder = os.path.dirname(folder)
    if not os.path.isdir(folder) or not os.access(folder, os.W_OK):
        raise Failed(f"it cannot be kept as {path}: {folder} is no folder that can be written to")


def put(made: str, path: str, started: int) -> None:
    """Puts a program in its place, whole or not at all, with the time at which its build began, so
    that a source which changed meanwhile is newer."""
    partly = f"{path}.{os.getpid()}"
    try:
        os.makedirs(os.path.dirname(path), exist_ok=True)
        shutil.copyfile(made, partly)
        os.chmod(partly, 0o755)
        os.utime(partly, ns=(started, started))
        os.replace(partly, path)
    except OSError as error:
        raise Failed(f"it cannot be kept as {path}: {error.strerror}") from None
    finally:
        if os.path.exists(partly):
            os.remove(partly)
