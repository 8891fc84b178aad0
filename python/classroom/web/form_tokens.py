"""Whether a form was made by a page of this server, for who sends it.

A browser sends a login, or a cookie, with every form, whatever page the form stands on. So each form
has a token that this server signed for its visitor, and where the browser says from which site the
form comes, that has to be this one."""
from __future__ import annotations

import hashlib
import secrets
from urllib.parse import urlsplit

import flask
import itsdangerous

from classroom.web.visitors import Visitor

TOKEN = "token"  # the field of each form
PORTS = {"http": 80, "https": 443}


class FormTokens:
    """Signs tokens with a secret that is drawn at the start and never written."""

    def __init__(self) -> None:
        self._serializer = itsdangerous.URLSafeSerializer(
            secrets.token_bytes(32), salt="form", signer_kwargs={"digest_method": hashlib.sha256}
        )

    def token(self, visitor: Visitor) -> str:
        return str(self._serializer.dumps(visitor.key))

    def is_valid(self, token: str, visitor: Visitor) -> bool:
        """Whether the token is this server's, and this visitor's. Of who sends neither a login nor
        a cookie, whoever keeps none, it is enough that it is this server's: such a form does
        nothing in anybody's name."""
        try:
            key = self._serializer.loads(token)
        except itsdangerous.BadSignature:
            return False
        return key == visitor.key or not visitor.is_known


def is_of_this_site(request: flask.Request) -> bool:
    """Whether all that the browser says of the page with the form names this site; it may say
    nothing."""
    if request.headers.get("Sec-Fetch-Site", "same-origin") not in ("same-origin", "none"):
        return False
    origin = request.headers.get("Origin")
    return origin is None or is_origin(origin, request.scheme, request.host)


def is_origin(origin: str, scheme: str, host: str) -> bool:
    """Whether an Origin is that of the address at which the request came. A web server in front may
    leave the port out of `host`, and not say that it was asked by https."""
    try:
        given, own = urlsplit(origin), urlsplit(f"{scheme}://{host}")
        ports = [part.port or PORTS.get(part.scheme) for part in (given, own)]
        is_same_port = own.port is None or ports[0] == ports[1]
    except ValueError:
        return False
    is_same_scheme = given.scheme in (own.scheme, "https")
    return is_same_scheme and given.hostname == own.hostname and is_same_port
