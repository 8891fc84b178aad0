"""What is known of a learning platform, both ways."""
from __future__ import annotations

from collections.abc import Callable, Sequence
from dataclasses import dataclass

from classroom.platforms.archive import Member
from classroom.platforms.back import Back, Made, Wanted
from classroom.platforms.handed import Reading


@dataclass(frozen=True)
class Platform:
    """One platform; what it has not is None."""

    name: str  # in --form, --for and --zip
    title: str
    names: tuple[str, ...]  # the forms of the names in its archive, as a teacher reads them
    source: str  # from where the forms are known
    recognises: Callable[[Member], bool]  # by a file's own path
    read: Callable[[Sequence[Member]], Reading]
    is_own: Callable[[Member], bool] = lambda member: False  # files that the platform adds
    # The table that it takes back, how it is called, and what is in it.
    table: Callable[[Sequence[Back], Wanted], Made] | None = None
    table_file: str = ""
    table_holds: str = ""
    # Where a student's page stands in the zip file that it takes back; empty where that is not known.
    place: Callable[[Back, Wanted], str] | None = None
    place_form: str = ""
