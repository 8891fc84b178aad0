"""What stops a build: one line that names it."""
from __future__ import annotations


class Failed(Exception):
    """Why there is no page."""


class Changed(Failed):
    """A part of the toolchain that is not as this build knows it."""

    def __init__(self, what: str) -> None:
        super().__init__(f"the toolchain's interface has changed: {what}")
