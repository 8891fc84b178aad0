"""How the server is, for a monitor: numbers and what SQLite says of a file, no text of a student and
no name."""
from __future__ import annotations

import shutil

import flask

from classroom.web.course import Course

# Bytes below which a disk is called full.
LEAST_FREE = 50_000_000


def health(course: Course) -> flask.Response:
    """200 where questions are answered and kept, else 503."""
    running = waiting = 0
    for places in {id(one.asker.places): one.asker.places for one in course.served}.values():
        run, wait = places.state()
        running, waiting = running + run, waiting + wait
    free = min(shutil.disk_usage(one.log.path.parent).free for one in course.served)
    faults = sorted({why for one in course.served if (why := one.log.why_not_kept())})
    if free < LEAST_FREE:
        faults.append("the disk is nearly full")
    found = {
        "status": "; ".join(faults) or "ok",
        "running": running,
        "waiting": waiting,
        "exercises": len(course.served),
        "free_bytes": free,
        "kept": not faults,
    }
    response = flask.jsonify(found)
    response.status_code = 503 if faults else 200
    return response
