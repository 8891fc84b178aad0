"""What students are shown, where a page may stand, and the headers of each page that say so."""
from __future__ import annotations

from dataclasses import dataclass

HEADERS = {
    "X-Content-Type-Options": "nosniff",
    "Referrer-Policy": "same-origin",
    "Cross-Origin-Opener-Policy": "same-origin",
    "Cross-Origin-Resource-Policy": "same-origin",
    "Cache-Control": "no-store",
}
POLICY = (
    "default-src 'none'; style-src 'self'; script-src 'self'; connect-src 'self'; "
    "img-src 'self' data:; form-action 'self'; base-uri 'none'; frame-ancestors {}"
)


@dataclass(frozen=True)
class Showing:
    """What students are shown, and where."""

    only_verdict: bool = False
    frame_ancestors: tuple[
        str, ...
    ] = ()  # the sites in whose frames the page stands; none where it stands alone

    @property
    def is_framed(self) -> bool:
        return bool(self.frame_ancestors)

    def headers(self) -> dict[str, str]:
        if self.is_framed:
            return {
                **HEADERS,
                "Content-Security-Policy": POLICY.format(" ".join(self.frame_ancestors)),
                "Cross-Origin-Resource-Policy": "cross-origin",
            }
        return {
            **HEADERS,
            "Content-Security-Policy": POLICY.format("'none'"),
            "X-Frame-Options": "DENY",
        }
