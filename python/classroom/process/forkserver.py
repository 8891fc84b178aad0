"""A process that has imported what questions need, and forks a child for each: else most of a short
question's time is that of a new Python.

A child gets one question, answers it and ends. It inherits the limits of memory and of files, and
bounds its processor time itself. Where who asked closes the connection or ends, however it does,
the child is killed; where the process itself ends, all of its children are. """
from __future__ import annotations

import ctypes
import gc
import os
import select
import signal
import socket
import subprocess
import threading
import time
import traceback
from collections.abc import Callable, Sequence
from dataclasses import dataclass
from typing import NoReturn, TypeVar

from classroom.process.limits import ENVIRONMENT, MEGABYTE, OUT_OF_MEMORY, Limits, Ran, bounded

PR_SET_PDEATHSIG = 1
MOST_NAME = 4096
FAILED = 1
ENDS = 10.0  # seconds in which it ends once nobody can ask it
Subject = TypeVar("Subject")


class Ended(Exception):
    """The process is closed."""


class Forks:
    """The process, begun at the first question, from any number of threads; one that died is begun
    again."""

    def __init__(self, words: Sequence[str], folder: str, limits: Limits) -> None:
        """`words` call a program that runs `serve`."""
        self.words, self.folder, self.limits = tuple(words), folder, limits
        self._lock = threading.Lock()
        self._process: subprocess.Popen[bytes] | None = None
        self._control: socket.socket | None = None
        self._is_closed = False

    def ask(self, subject: str, question: bytes) -> Ran:
        """One question, a line without its end; what the child printed, and where it failed its
        last words as if it had printed them to standard error. Ended where this was closed."""
        begun = time.monotonic()
        ours, theirs = socket.socketpair()
        with ours:
            with theirs:
                self._send(subject, theirs)
            text, passed = b"", ""
            try:
                text = self._answer(ours, question + b"\n", begun + self.limits.seconds)
            except TimeoutError:
                passed = "time"
            except OSError:
                pass  # it ended
        if self._is_closed:
            raise Ended
        if len(text) > self.limits.output * MEGABYTE:
            return Ran(-signal.SIGKILL, b"", b"", time.monotonic() - begun, "output")
        said, _, last = (
            text.removesuffix(b"\n").rpartition(b"\n") if text.endswith(b"\n") else (b"", b"", b"")
        )
        status = int(last) if last.lstrip(b"-").isdigit() else -signal.SIGKILL
        passed = passed or ("memory" if status == OUT_OF_MEMORY else "")
        return Ran(
            status,
            b"" if status else said,
            said if status else b"",
            time.monotonic() - begun,
            passed,
        )

    def _answer(self, ours: socket.socket, question: bytes, until: float) -> bytes:
        """What comes back, up to a byte more than there may be."""
        ours.settimeout(max(0.001, until - time.monotonic()))
        ours.sendall(question)
        text, most = bytearray(), round(self.limits.output * MEGABYTE) + 1
        while len(text) < most:
            ours.settimeout(max(0.001, until - time.monotonic()))
            got = ours.recv(min(65_536, most - len(text)))
            if not got:
                break
            text += got
        return bytes(text)

    def _send(self, subject: str, theirs: socket.socket) -> None:
        with self._lock:
            for is_last in (False, True):
                if self._is_closed:
                    raise Ended
                if self._control is None:
                    self._control = self._begin()
                try:
                    socket.send_fds(self._control, [os.fsencode(subject)], [theirs.fileno()])
                    return
                except OSError:
                    self._end()
                    if is_last:
                        raise

    def _begin(self) -> socket.socket:
        ours, theirs = socket.socketpair(socket.AF_UNIX, socket.SOCK_SEQPACKET)
        with theirs:
            self._process = subprocess.Popen(
                [*bounded(self.limits), *self.words],
                stdin=theirs.fileno(),
                stdout=subprocess.DEVNULL,
                stderr=subprocess.DEVNULL,
                cwd=self.folder,
                env=ENVIRONMENT,
                start_new_session=True,
            )
        return ours

    def _end(self) -> None:
        if self._control:
            self._control.close()
        if self._process:
            try:
                self._process.wait(ENDS)
            except subprocess.TimeoutExpired:
                self._process.kill()  # and its children with it
                self._process.wait()
        self._control = self._process = None

    def close(self) -> None:
        """Ends the process with all that it forked."""
        with self._lock:
            self._is_closed = True
            self._end()


@dataclass(frozen=True)
class Asked:
    """A child, and where its answer goes."""

    process: int
    connection: socket.socket


def serve(ready: Callable[[str], Subject], answer: Callable[[Subject, bytes], bytes]) -> None:
    """Forks a child for each question that comes over standard input, until that is closed. `ready`
    makes what the questions with a name are about, once."""
    control = socket.socket(fileno=os.dup(0))
    nothing = os.open(os.devnull, os.O_RDWR)
    os.dup2(nothing, 0)
    os.close(nothing)
    woken, wakes = socket.socketpair()
    for end in (woken, wakes):
        end.setblocking(False)
    signal.signal(signal.SIGCHLD, lambda *_: None)
    signal.set_wakeup_fd(wakes.fileno(), warn_on_full_buffer=False)
    Server(control, woken, wakes, ready, answer).run()


class Server:
    """The loop of the process."""

    def __init__(
        self,
        control: socket.socket,
        woken: socket.socket,
        wakes: socket.socket,
        ready: Callable[[str], Subject],
        answer: Callable[[Subject, bytes], bytes],
    ) -> None:
        self.control, self.woken, self.wakes = control, woken, wakes
        self.own = os.getpid()
        self.poll = select.poll()
        self.poll.register(control, select.POLLIN)
        self.poll.register(woken, select.POLLIN)
        self.running: dict[int, Asked] = {}  # by the number of the connection
        subjects: dict[str, Subject] = {}

        def of(name: str, question: bytes) -> bytes:
            return answer(subjects[name], question)

        def prepare(name: str) -> None:
            if name not in subjects:
                subjects[name] = ready(name)
                gc.freeze()

        self.answer, self.prepare = of, prepare

    def run(self) -> None:
        while True:
            for number, _ in self.poll.poll():
                if number == self.woken.fileno():
                    self.woken.recv(65_536)
                elif number == self.control.fileno():
                    name, numbers, _, _ = socket.recv_fds(self.control, MOST_NAME, 1)
                    if not numbers:
                        self.end()
                        return
                    self.begin(os.fsdecode(name), socket.socket(fileno=numbers[0]))
                else:
                    # Who asked waits no more.
                    self.poll.unregister(number)
                    os.kill(self.running[number].process, signal.SIGKILL)
            self.reap()

    def begin(self, name: str, connection: socket.socket) -> None:
        try:
            self.prepare(name)
            process = os.fork()
        except Exception as fault:
            finish(connection, f"{last_line(fault)}\n{FAILED}\n".encode("utf-8", "replace"))
            return
        if not process:
            self.child(name, connection)
        self.running[connection.fileno()] = Asked(process, connection)
        self.poll.register(connection, 0)

    def end(self) -> None:
        """Ends all children, and waits for them."""
        for of in self.running.values():
            os.kill(of.process, signal.SIGKILL)
        for of in self.running.values():
            os.waitpid(of.process, 0)

    def reap(self) -> None:
        by_process = {of.process: number for number, of in self.running.items()}
        while by_process:
            process, status = os.waitpid(-1, os.WNOHANG)
            if not process:
                break
            number = by_process.pop(process)
            connection = self.running.pop(number).connection
            try:
                self.poll.unregister(number)
            except KeyError:
                pass
            finish(connection, f"{os.waitstatus_to_exitcode(status)}\n".encode())

    def child(self, name: str, connection: socket.socket) -> NoReturn:
        """Answers one question and ends."""
        status = FAILED
        try:
            ctypes.CDLL(None).prctl(PR_SET_PDEATHSIG, signal.SIGKILL)
            if os.getppid() != self.own:
                os._exit(FAILED)
            signal.set_wakeup_fd(-1)
            signal.signal(signal.SIGCHLD, signal.SIG_DFL)
            for other in (
                self.control,
                self.woken,
                self.wakes,
                *(of.connection for of in self.running.values()),
            ):
                other.close()
            with connection.makefile("rb") as lines:
                question = lines.readline()
            connection.sendall(self.answer(name, question) + b"\n")
            status = 0
        except MemoryError:
            status = OUT_OF_MEMORY
        except BaseException as fault:
            connection.sendall(f"{last_line(fault)}\n".encode("utf-8", "replace"))
        finally:
            os._exit(status)


def last_line(fault: BaseException) -> str:
    return traceback.format_exception_only(type(fault), fault)[-1].strip().replace("\n", " ")


def finish(connection: socket.socket, text: bytes) -> None:
    with connection:
        connection.setblocking(False)
        try:
            connection.sendall(text)
        except OSError:
            pass  # who asked waits no more
