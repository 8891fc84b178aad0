"""So many calls at once; further ones wait in a line of bounded length, in which nobody starves the
others.

A call that takes longer than a second leaves its place to others and goes on beside them, as long
as there are no more such calls than places: so few hard questions don't stop the many that are
short. A visitor has one call at a time. Of those that wait comes first whose visitor was served
longest ago, so a second question waits behind everybody's first. Visitors of one network, who may
be one person without cookies, have at most half of the places as long as somebody of another
network waits, and a share of the line. """
from __future__ import annotations

import threading
import time
from collections import Counter
from collections.abc import Iterator
from contextlib import contextmanager
from dataclasses import dataclass, field

# Parts of the line that one visitor, and one network, may take.
VISITOR_SHARE, NETWORK_SHARE = 8, 2
SLOW = 1.0
LOOKS = 0.25  # seconds between two looks of who waits at whether one did
# Visitors whose last turn is remembered.
MOST_KNOWN = 10_000


class Busy(Exception):
    """There is no place, nor one in the line; or none came free in time."""


@dataclass(eq=False)
class Ticket:
    """Somebody who waits for a place."""

    visitor: str
    network: str
    number: int  # in the order of coming
    is_called: bool = False
    begun: float = 0.0
    turn: threading.Event = field(default_factory=threading.Event)


class Places:
    """The places of calls, for threads that wait at most so many seconds for one."""

    def __init__(self, at_once: int, waiting: int, seconds: float, slow: float = SLOW) -> None:
        """`slow` are the seconds after which a call leaves its place."""
        self.at_once = at_once
        self.waiting = waiting
        self.seconds = seconds
        self.slow = slow
        self._lock = threading.Lock()
        self._line: list[Ticket] = []
        self._called: set[Ticket] = set()  # who runs
        self._running: Counter[str] = Counter()  # by visitor
        self._networks: Counter[str] = Counter()  # the same by network
        self._served: dict[str, int] = {}  # the turn in which each visitor was served last
        self._turn = self._count = 0

    @contextmanager
    def one(self, visitor: str, network: str = "") -> Iterator[None]:
        """Holds a place; Busy where there is none to be had."""
        ticket = self._wait(visitor, network or visitor)
        try:
            yield
        finally:
            with self._lock:
                self._leave(ticket)
                self._call()

    def state(self) -> tuple[int, int]:
        """How many run, and how many wait."""
        with self._lock:
            return len(self._called), len(self._line)

    def _taken(self) -> int:
        """How many places are taken: by all that run, but for those that are slow."""
        slow = sum(time.monotonic() - ticket.begun >= self.slow for ticket in self._called)
        return len(self._called) - min(slow, self.at_once)

    def _wait(self, visitor: str, network: str) -> Ticket:
        with self._lock:
            self._check_share(visitor, network)
            self._count += 1
            ticket = Ticket(visitor, network, self._count)
            self._line.append(ticket)
            self._call()
        until = time.monotonic() + self.seconds
        while not ticket.turn.wait(max(0.0, min(LOOKS, until - time.monotonic()))):
            with self._lock:
                self._call()
                if not ticket.is_called and time.monotonic() >= until:
                    self._line.remove(ticket)
                    raise Busy
        return ticket

    def _check_share(self, visitor: str, network: str) -> None:
        # Who comes first is not bounded by the line, since a place may be free.
        if self._taken() < self.at_once and not self._line:
            return
        mine = sum(ticket.visitor == visitor for ticket in self._line)
        ours = sum(ticket.network == network for ticket in self._line)
        if (
            len(self._line) >= self.waiting
            or mine >= max(1, self.waiting // VISITOR_SHARE)
            or ours >= max(1, self.waiting // NETWORK_SHARE)
        ):
            raise Busy

    def _call(self) -> None:
        """Gives each free place to who comes first."""
        while self._taken() < self.at_once:
            others = len({ticket.network for ticket in self._line}) > 1
            half = max(1, self.at_once // 2)
            able = [
                ticket
                for ticket in self._line
                if not self._running[ticket.visitor]
                and not (others and self._networks[ticket.network] >= half)
            ]
            if not able:
                return
            ticket = min(able, key=lambda one: (self._served.get(one.visitor, 0), one.number))
            self._line.remove(ticket)
            self._called.add(ticket)
            ticket.begun = time.monotonic()
            self._running[ticket.visitor] += 1
            self._networks[ticket.network] += 1
            self._turn += 1
            self._served.pop(ticket.visitor, None)
            self._served[ticket.visitor] = self._turn
            while len(self._served) > MOST_KNOWN:
                del self._served[next(iter(self._served))]
            ticket.is_called = True
            ticket.turn.set()

    def _leave(self, ticket: Ticket) -> None:
        self._called.remove(ticket)
        for counts, key in ((self._running, ticket.visitor), (self._networks, ticket.network)):
            counts[key] -= 1
            if not counts[key]:
                del counts[key]
