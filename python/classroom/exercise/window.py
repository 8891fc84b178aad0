"""From when to when an exercise is open, and what is shown afterwards."""
from __future__ import annotations

from dataclasses import dataclass
from datetime import datetime, timezone, tzinfo


@dataclass(frozen=True)
class Window:
    """None where it has no such end; moments have zones."""

    opens: datetime | None = None
    closes: datetime | None = None
    shows_references: bool = False  # after it closes
    zone: tzinfo | None = None  # in which its times are shown; None: the machine's

    def state(self, now: datetime | None = None) -> str:
        """before, open or after."""
        moment = now or datetime.now(timezone.utc)
        if self.opens and moment < self.opens:
            return "before"
        return "after" if self.closes and moment > self.closes else "open"
