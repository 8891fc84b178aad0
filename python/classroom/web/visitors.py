"""Who asks, as far as counting needs it, and how many counterexamples each was shown within the
last hour.

Nobody is known by name. A visitor is a random cookie that this server has signed; or, behind a web
server that asks for a login, the digest of the name that it sends. Every digest is made with a
secret that is drawn at the start and never written. Who drops the cookie is a new visitor, so a
network may in all see no more than so many visitors would. """
from __future__ import annotations

import hashlib
import hmac
import secrets
import threading
from dataclasses import dataclass

import itsdangerous
import limits
from limits.storage import MemoryStorage
from limits.strategies import MovingWindowRateLimiter

# Visitors of one network: a room of computers behind one router.
SHARING = 30
# What is kept of one visitor's questions within an hour, in units of so many bytes that are begun.
KEPT_HOURLY, UNIT = 250, 4096


@dataclass(frozen=True)
class Visitor:
    """By what a visitor is counted."""

    key: str  # of the visitor, by whom one question is answered at a time
    network: str  # of all behind one address; empty for a login
    cookie: str | None  # one that has to be set
    login: str = ""  # the name itself; empty where there is none

    @property
    def is_known(self) -> bool:
        """Whether it showed who it is: by a login, or a cookie that this server gave."""
        return self.cookie is None


class Visitors:
    """Knows visitors again, and counts what each was shown."""

    def __init__(self, hourly: int | None) -> None:
        """`hourly` counterexamples for each; None where their number is not bounded."""
        self.hourly = hourly
        self._secret = secrets.token_bytes(32)
        self._signer = itsdangerous.Signer(
            self._secret, salt="visitor", digest_method=hashlib.sha256
        )
        # The limiter itself holds it by a weak reference.
        self._storage = MemoryStorage()
        self._limiter = MovingWindowRateLimiter(self._storage)
        self._lock = threading.Lock()

    def visitor(self, cookie: str, network: str, login: str) -> Visitor:
        """Who sent this cookie from this network; `login` is empty where there is none."""
        if login:
            return Visitor(self._digest("login", login), "", None, login)
        try:
            name, new = self._signer.unsign(cookie).decode("ascii"), None
        except (itsdangerous.BadSignature, UnicodeError):
            name = secrets.token_hex(16)
            new = self._signer.sign(name).decode("ascii")
        return Visitor(self._digest("visitor", name), self._digest("network", network), new)

    def may_see(self, visitor: Visitor, shown: str) -> bool:
        """Whether a visitor is shown this counterexample, or hint, which then counts; one that was
        shown within the hour counts no second time."""
        if self.hourly is None:
            return True
        bounds = hourly(visitor, self.hourly)
        once = limits.RateLimitItemPerHour(1)
        with self._lock:
            new = [(key, most) for key, most in bounds if self._limiter.test(once, key, shown)]
            if not all(self._limiter.test(most, key) for key, most in new):
                return False
            for key, most in new:
                self._limiter.hit(once, key, shown)
                self._limiter.hit(most, key)
        return True

    def may_keep(self, visitor: Visitor, size: int) -> bool:
        """Whether a question of so many bytes is kept for a visitor, which then counts."""
        units = size // UNIT + 1
        with self._lock:
            return all(
                self._limiter.hit(most, "kept", key, cost=units)
                for key, most in hourly(visitor, KEPT_HOURLY)
            )

    def _digest(self, kind: str, text: str) -> str:
        return hmac.new(
            self._secret, f"{kind} {text}".encode("utf-8", "replace"), hashlib.sha256
        ).hexdigest()[:32]


def hourly(visitor: Visitor, most: int) -> list[tuple[str, limits.RateLimitItemPerHour]]:
    """The bounds of a visitor, and of all from the same network, by their keys."""
    return [
        (key, limits.RateLimitItemPerHour(times * most))
        for key, times in ((visitor.key, 1), (visitor.network, SHARING))
        if key
    ]
