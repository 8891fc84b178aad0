"""The text of a page that an editor kept, and its time on hostile ones."""
from __future__ import annotations

import time

import pytest

from classroom.platforms.html import MOST_CHARACTERS, text_of


@pytest.mark.parametrize(
    "page, text",
    [
        ("<p>SELECT a</p><p>FROM t</p>", "SELECT a\n\nFROM t\n"),
        ("SELECT a<br>FROM t<br/>WHERE b &lt; 1", "SELECT a\nFROM t\nWHERE b < 1\n"),
        ("SELECT&nbsp;a\nFROM t", "SELECT a FROM t\n"),
        ("<pre>SELECT a\nFROM t</pre>", "SELECT a\nFROM t\n"),
        ("<style>p > a {}</style><!-- <p> -->SELECT 1", "SELECT 1\n"),
        ('<a title="x > y">SELECT</a> 1', "SELECT 1\n"),
        ("SELECT a < 1 AND b <2", "SELECT a < 1 AND b <2\n"),
        ("SELECT a <b", "SELECT a <b\n"),
        ("<!DOCTYPE html><?x?>SELECT &#39;a&#x27;", "SELECT 'a'\n"),
        ("SELECT &#" + "1" * 5000 + "; a", "SELECT \ufffd a\n"),
        ("</pre></style>SELECT\n1", "SELECT 1\n"),
    ],
)
def test_texts(page: str, text: str) -> None:
    assert text_of(page).strip("\n") == text.strip("\n")


@pytest.mark.parametrize(
    "piece",
    [
        "<a ",
        "<!--",
        "<",
        "<!",
        "</",
        '<a "',
        "<a '>\"",
        "<p>",
        "&#1",
        "&a",
        "&",
        '<a "x>" ',
        "\n",
        "-->",
    ],
)
def test_time_is_linear(piece: str) -> None:
    """With wide bounds: four times the length may take eight times the time and half a second."""

    def taken(length: int) -> float:
        page = piece * (length // len(piece))
        begin = time.process_time()
        text_of(page)
        return time.process_time() - begin

    short, long = taken(MOST_CHARACTERS // 4), taken(MOST_CHARACTERS)
    assert long < 5 and long < 8 * short + 0.5


def test_a_page_has_a_most() -> None:
    with pytest.raises(ValueError, match="256 KiB"):
        text_of("a" * (MOST_CHARACTERS + 1))
