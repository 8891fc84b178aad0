"""A form counts only where a page of this server made it for who sends it."""
from __future__ import annotations

import html
import re
import threading
import urllib.parse
from collections.abc import Iterator
from contextlib import contextmanager
from http.server import BaseHTTPRequestHandler, ThreadingHTTPServer
from pathlib import Path
from typing import Any, NamedTuple

import pytest
from products import TOP
from served import FORM, Reply, Server, serving
from test_serve_browser import ask, texts

pytest.importorskip("flask")
pytest.importorskip("waitress")

from classroom.web.form_tokens import FormTokens, is_origin  # noqa: E402
from classroom.web.visitors import Visitors  # noqa: E402

RIGHT = (TOP / "examples/beers/3/reference.sql").read_text()
PROXY = ("--proxy", "127.0.0.1", "--user-header", "X-User")
ANN = {"X-User": "ann"}


def sent(server: Server, token: str | None, headers: dict[str, str], do: str = "hand in") -> Reply:
    fields = {"task": "3", "query": RIGHT, "do": do, **({"token": token} if token else {})}
    return server.send("POST", "/", urllib.parse.urlencode(fields).encode(), {**FORM, **headers})


def field(reply: Reply) -> str:
    """What stands in the field of the query."""
    found = re.search(r'<textarea id="query"[^>]*>\n(.*?)</textarea>', reply.body, re.DOTALL)
    assert found
    return html.unescape(found[1])


def test_a_token_is_of_one_visitor() -> None:
    visitors, tokens = Visitors(None), FormTokens()
    ann, ben = visitors.visitor("", "n", "ann"), visitors.visitor("", "n", "ben")
    new = visitors.visitor("", "n", "")
    assert new.cookie
    known, other = visitors.visitor(new.cookie, "n", ""), visitors.visitor("", "m", "")
    assert tokens.is_valid(tokens.token(ann), ann) and not tokens.is_valid(tokens.token(ann), ben)
    assert tokens.is_valid(tokens.token(new), known)
    assert not tokens.is_valid(tokens.token(other), known)
    # Who keeps no cookie is nobody in whose name anything could be done.
    assert tokens.is_valid(tokens.token(other), visitors.visitor("", "n", ""))
    assert not tokens.is_valid(tokens.token(new), ann)
    for text in ("", "x", tokens.token(ann)[:-1], FormTokens().token(ann)):
        assert not tokens.is_valid(text, ann) and not tokens.is_valid(text, new)


@pytest.mark.parametrize(
    "origin, scheme, host, is_own",
    [
        ("http://sql.example.org", "http", "sql.example.org", True),
        ("https://sql.example.org", "https", "sql.example.org", True),
        ("https://sql.example.org:443", "https", "sql.example.org", True),
        ("http://127.0.0.1:8000", "http", "127.0.0.1:8000", True),
        ("http://[::1]:8000", "http", "[::1]:8000", True),
        # nginx's $host has no port, and not every web server tells that it was asked by https.
        ("https://sql.example.org:8443", "https", "sql.example.org", True),
        ("https://sql.example.org", "http", "sql.example.org", True),
        ("http://sql.example.org", "https", "sql.example.org", False),
        ("http://127.0.0.1:8001", "http", "127.0.0.1:8000", False),
        ("https://evil.example", "https", "sql.example.org", False),
        ("https://sql.example.org.evil.example", "https", "sql.example.org", False),
        ("https://evil.example/sql.example.org", "https", "sql.example.org", False),
        ("https://sql.example.org@evil.example", "https", "sql.example.org", False),
        ("null", "https", "sql.example.org", False),
        ("", "https", "sql.example.org", False),
        ("https://sql.example.org:x", "https", "sql.example.org", False),
        ("http://[::1", "http", "127.0.0.1", False),
        ("file://sql.example.org", "http", "sql.example.org", False),
    ],
)
def test_origins(origin: str, scheme: str, host: str, is_own: bool) -> None:
    assert is_origin(origin, scheme, host) == is_own


def test_a_forged_form_hands_nothing_in(ratest: Path, beers: Path) -> None:
    """Neither one that says where it comes from nor one that keeps silent."""
    with serving(beers, *PROXY) as server:
        token, of_ben = server.token(ANN), server.token({"X-User": "ben"})
        for forged in (None, "x", of_ben):
            got = sent(server, forged, ANN)
            assert got.status == 409 and field(got) == RIGHT and "Send it again." in got.answer
        for origin in ("http://evil.example", "null"):
            assert sent(server, token, {**ANN, "Origin": origin}).status == 403
        assert "handed in" not in server.send("GET", "/", None, ANN).body.lower()
        own = f"http://127.0.0.1:{server.port}"
        assert "Receipt" in sent(server, token, {**ANN, "Origin": own}).answer


def test_a_page_from_before_a_restart_keeps_the_text(ratest: Path, beers: Path) -> None:
    with serving(beers, *PROXY) as server:
        old = server.token(ANN)
    with serving(beers, *PROXY) as server:
        got = sent(server, old, ANN)
        assert got.status == 409 and field(got) == RIGHT
        found = re.search('name="token" value="([^"]*)"', got.body)
        assert found and "Receipt" in sent(server, found[1], ANN).answer


def test_who_keeps_no_cookie_may_ask(ratest: Path, beers: Path) -> None:
    with serving(beers) as server:
        found = re.search('name="token" value="([^"]*)"', server.send("GET", "/").body)
        assert found and sent(server, found[1], {}, "ask").verdict == "agrees"
        assert sent(server, None, {}, "ask").status == 409


# In a browser: pages of another origin, as a hostile site or a platform has them.


class Site(NamedTuple):
    address: str
    pages: list[str]  # the last one is what it answers


@contextmanager
def site() -> Iterator[Site]:
    """A site at `localhost`, which is another one than 127.0.0.1."""
    pages = [""]

    class Handler(BaseHTTPRequestHandler):
        def do_GET(self) -> None:
            body = pages[-1].encode()
            self.send_response(200)
            self.send_header("Content-Type", "text/html; charset=utf-8")
            self.send_header("Content-Length", str(len(body)))
            self.end_headers()
            self.wfile.write(body)

        def log_message(self, format: str, *values: object) -> None:
            pass

    server = ThreadingHTTPServer(("127.0.0.1", 0), Handler)
    thread = threading.Thread(target=server.serve_forever)
    thread.start()
    try:
        yield Site(f"http://localhost:{server.server_port}", pages)
    finally:
        server.shutdown()
        thread.join()
        server.server_close()


def test_a_form_of_another_origin_in_a_browser(ratest: Path, beers: Path, browser: Any) -> None:
    with serving(beers) as server:
        own = f"http://127.0.0.1:{server.port}/"
        browser.get(own)
        token = browser.find_element("name", "token").get_property("value")
        forged = (
            f'<form method="post" action="{own}"><input name="task" value="3"><input name="token"'
            f' value="{token}"><input name="query" value="SELECT 1"><button>Win</button></form>'
        )
        with site() as hostile:
            hostile.pages.append(forged)
            browser.get(hostile.address)
            browser.find_element("css selector", "button").click()
            assert "A form of another site is not read." in browser.page_source
        browser.get(own)
        browser.find_element("css selector", "#ask button").click()
        assert "A form of another site" not in browser.page_source


@pytest.mark.parametrize("has_script", [True, False], ids=["with a script", "without a script"])
def test_a_form_in_the_frame_of_a_platform(
    ratest: Path, beers: Path, browser: Any, has_script: bool
) -> None:
    """Over http a browser keeps no cookie in a frame, and the form is answered."""
    with site() as platform, serving(beers, "--frame-ancestors", platform.address) as server:
        platform.pages.append(
            f'<iframe src="http://127.0.0.1:{server.port}/" width="900" height="900"></iframe>'
        )
        browser.execute_cdp_cmd("Emulation.setScriptExecutionDisabled", {"value": not has_script})
        try:
            browser.get(platform.address)
            browser.switch_to.frame(browser.find_element("css selector", "iframe"))
            ask(browser, "3", RIGHT)
            assert texts(browser, "#answer h2") == ["agrees"]
        finally:
            browser.switch_to.default_content()
            browser.execute_cdp_cmd("Emulation.setScriptExecutionDisabled", {"value": False})
