"""The gradebook of an exercise that is graded, as every command that shows a mark takes it."""
from __future__ import annotations

import logging
from collections.abc import Mapping, Sequence

from classroom.base.errors import shown
from classroom.base.files import write
from classroom.exercise.exercise import Exercise
from classroom.grading.graded import Graded
from classroom.grading.store import Results
from classroom.hints.find_mistakes import Mistakes
from classroom.hints.mistake import Mistake
from classroom.marks import mark_files
from classroom.marks.gradebook import Gradebook, gradebook
from classroom.people.roster import ClassList
from classroom.views import for_class, for_teacher

# The page of earlier versions, which was for the teacher or for students.
OLD_PAGE = "page.html"
log = logging.getLogger(__name__)


def book_of(
    given: Exercise,
    graded: Sequence[Graded],
    listed: ClassList,
    mistakes: Mapping[str, Mistake] | None = None,
    is_by_files: bool = False,
) -> Gradebook:
    """The marks by what is kept, by exercise.toml and by class/marks.csv as they are now."""
    found = Mistakes(given).of(graded) if mistakes is None else mistakes
    names = {record: one.name for record, one in found.items() if one.name}
    return gradebook(given, graded, listed, names, is_by_files)


def renew(results: Results, book: Gradebook) -> None:
    """Writes the tables of the marks anew, and tells which lines of class/marks.csv don't count."""
    results.write_tables(mark_files.tables(book))
    tell_notes(book)


def write_pages(results: Results, book: Gradebook, found: Mapping[str, Mistake] = {}) -> None:
    """Writes the page of the teacher and that of the students; `found` are the mistakes of answers,
    by the keys of their records."""
    write(results.folder / "teacher.html", for_teacher.page_of(book, found))
    write(results.folder / "students.html", for_class.page_of(book))
    old = results.folder / OLD_PAGE
    if old.is_file():
        old.unlink()
        log.warning(
            "%s is removed: the pages are teacher.html and students.html now", shown(str(old))
        )


def tell_notes(book: Gradebook) -> None:
    for note in (*book.notes, *book.gone):
        log.warning("%s", note)
