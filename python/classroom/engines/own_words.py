"""A database's message with nothing in it but what the reader wrote or sees."""
from __future__ import annotations

import re
from collections.abc import Iterable

QUOTED = re.compile(r"\"([^\"]*)\"|'([^']*)'")
# From the first quote to the last: a text that is quoted may have quotes in it.
ALL_QUOTED = re.compile(r"[\"'].*[\"']|[\"'].*\Z", re.DOTALL)
MOST_SHORT = 2  # characters, as of signs, that tell nothing


def own_words(message: str, query: str, cells: Iterable[str]) -> str:
    """The message, with ".." for what it quotes where that is neither in the query nor a value of
    the rows."""
    found = [one or two for one, two in QUOTED.findall(message)]
    is_left = bool(re.search(r"[\"']", QUOTED.sub("", message)))
    low = query.lower()
    strange = {text for text in found if len(text) > MOST_SHORT and text.lower() not in low}
    if strange:
        strange -= set(cells)
    return ALL_QUOTED.sub('".."', message) if strange or is_left else message
