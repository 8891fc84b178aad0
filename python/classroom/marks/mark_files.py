"""The tables of a class's marks, and the list of what is open that `grade` prints."""
from __future__ import annotations

import csv
import io
import json
from collections.abc import Callable, Iterator, Mapping

from classroom.base.csvcells import safe
from classroom.base.errors import shown
from classroom.grading.graded import Graded
from classroom.grading.grades_files import output
from classroom.marks.gradebook import Gradebook, class_csv, outcome_name, text_name
from classroom.marks.mark import Mark, number
from classroom.marks.mark import shown as shown_points
from ratest.draw import counted

MOST_NAMES = 8


# The columns of grades.csv by their names.
COLUMNS: dict[str, Callable[[Graded, Mark], object]] = {
    "task": lambda of, mark: of.task.label,
    "answer": lambda of, mark: of.answer.label,
    "grade": lambda of, mark: of.grade,
    "points": lambda of, mark: "" if mark.points is None else shown_points(mark.points),
    "decided_by": lambda of, mark: of.decided_by if mark.is_open else mark.by,
    "rows": lambda of, mark: "" if of.rows is None else of.rows,
    "seconds": lambda of, mark: "" if of.ran is None else f"{of.ran.seconds:.3f}",
    "fault": lambda of, mark: of.why,
    "text": lambda of, mark: text_name(of),
    "outcome": lambda of, mark: outcome_name(of),
}


def tables(book: Gradebook) -> Mapping[str, bytes]:
    """All that is made of the marks, by the names of the files."""
    return {
        "grades.csv": grades_csv(book),
        "results.json": results_json(book),
        "class.csv": class_csv(book),
    }


def grades_csv(book: Gradebook) -> bytes:
    text = io.StringIO(newline="")
    lines = csv.writer(text, lineterminator="\n")
    quoted = csv.writer(text, lineterminator="\n", quoting=csv.QUOTE_ALL)
    lines.writerow(COLUMNS)
    for of in book.graded:
        made = {name: str(column(of, book.mark(of))) for name, column in COLUMNS.items()}
        # A number may be below 0, and is no formula.
        cells = [cell if name == "points" else safe(cell) for name, cell in made.items()]
        # It quotes no cell for a carriage return alone.
        (quoted if any("\r" in cell for cell in cells) else lines).writerow(cells)
    return text.getvalue().encode("utf-8", "replace")


def results_json(book: Gradebook) -> bytes:
    """For an autograder, as Gradescope reads it: one test an answer that has a score, with what
    decided it."""
    marks = [(of, book.mark(of)) for of in book.graded]
    tests = [
        {
            "name": f"{of.task.label}/{of.answer.label}",
            "score": number(mark.points),
            "max_score": number(mark.most),
            "status": "passed" if mark.is_right else "failed",
            "decided_by": mark.by,
            "output": "\n\n".join(filter(None, (output(of), mark.late, mark.comment))),
        }
        for of, mark in marks
        if mark.points is not None
    ]
    return (json.dumps({"tests": tests}, indent=1) + "\n").encode("ascii")


def by_hand(book: Gradebook) -> Iterator[str]:
    """The lines of the list of what has no score, by tasks, the most frequent reason first."""
    left: dict[str, dict[str, list[str]]] = {}
    for of in book.open:
        reason = book.mark(of).late if of.share is not None else of.reason
        left.setdefault(of.task.label, {}).setdefault(reason, []).append(of.answer.label)
    if left:
        yield "to be graded by hand:"
    for task, reasons in left.items():
        for reason, names in sorted(reasons.items(), key=lambda item: -len(item[1])):
            more = f" and {len(names) - MOST_NAMES} more" if len(names) > MOST_NAMES else ""
            yield (
                f"  task {shown(task)}: {counted(len(names), 'answer')}:"
                f" {shown(reason)} ({shown(*names[:MOST_NAMES])}{more})"
            )
    for dialect in sorted({of.decision.dialect for of in book.graded} - {""}):
        count = sum(of.decision.dialect == dialect for of in book.graded)
        advice = ": give this exercise an engine of PostgreSQL" * (dialect == "PostgreSQL")
        yield f"  {counted(count, 'answer')} in words of {dialect}{advice}"
