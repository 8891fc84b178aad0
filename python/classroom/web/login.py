"""Who asks: the address and the login of a request, believed only of the web server in front.

What a client says of itself in a header counts for nothing unless it came by the trusted peer:
through the Unix socket, or from the one address that is named. From any other peer such headers are
dropped before anything reads them. """
from __future__ import annotations

import ipaddress
import socket
from collections.abc import Callable, Iterable, Mapping
from dataclasses import dataclass
from typing import Any

from werkzeug.middleware.proxy_fix import ProxyFix

from classroom.base.errors import Fault, shown

# What waitress calls the peer of a Unix socket.
SOCKET_PEER = "localhost"
FORWARDED = (
    "HTTP_X_FORWARDED_FOR",
    "HTTP_X_FORWARDED_PROTO",
    "HTTP_X_FORWARDED_HOST",
    "HTTP_X_FORWARDED_PORT",
    "HTTP_X_FORWARDED_PREFIX",
    "HTTP_X_FORWARDED_BY",
    "HTTP_FORWARDED",
)
MOST_LOGIN = 200  # characters
Application = Callable[[dict[str, Any], Callable[..., Any]], Iterable[bytes]]


@dataclass(frozen=True)
class Front:
    """The web server in front of this one."""

    peers: frozenset[
        str
    ] = frozenset()  # as waitress names them: an address, or SOCKET_PEER; none where there is none
    user_header: str = ""  # in which it sends the name of a login; empty where there is none

    @property
    def user_key(self) -> str:
        """The header as an environment of WSGI has it."""
        return f"HTTP_{self.user_header.upper().replace('-', '_')}" if self.user_header else ""


class Behind:
    """An application behind a web server: what that one says of a client takes the place of what is
    seen here."""

    def __init__(self, application: Application, front: Front) -> None:
        self.application = application
        self.front = front
        self.fixed: Application = ProxyFix(
            application, x_for=1, x_proto=1, x_host=0, x_port=0, x_prefix=1
        )

    def __call__(
        self, environ: dict[str, Any], start_response: Callable[..., Any]
    ) -> Iterable[bytes]:
        if environ.get("REMOTE_ADDR") in self.front.peers:
            return self.fixed(environ, start_response)
        for name in (*FORWARDED, self.front.user_key):
            environ.pop(name, None)
        return self.application(environ, start_response)


def addresses(name: str) -> set[str]:
    """Those of a machine by its name, or the address itself; none where nothing is named."""
    if not name:
        return set()
    try:
        found = socket.getaddrinfo(name, None, type=socket.SOCK_STREAM)
    except (OSError, UnicodeError):
        raise Fault(f"--proxy: {shown(name)}: no address, and no machine of this name") from None
    return {str(address[0]) for *_, address in found}


def login(environ: Mapping[str, Any], front: Front) -> str:
    """The name of the login, as the web server sends it; empty where there is none."""
    value = str(environ.get(front.user_key, "")) if front.user_key else ""
    # WSGI has each byte of a header as a character.
    name = value.encode("latin-1", "replace").decode("utf-8", "replace").strip()
    return name if len(name) <= MOST_LOGIN and name.isprintable() else ""


def network(address: str) -> str:
    """The address as far as it tells one household from another: of IPv6 the first 64 bits."""
    try:
        found = ipaddress.ip_address(address.partition("%")[0])
    except ValueError:
        return address
    if isinstance(found, ipaddress.IPv6Address):
        if found.ipv4_mapped:
            return str(found.ipv4_mapped)
        return str(ipaddress.ip_network((found, 64), strict=False))
    return str(found)
