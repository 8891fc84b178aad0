"""The teacher's page while the server runs, on this machine alone: how much is asked, which
mistakes are made, what is refused. It needs no login, so it is never where others reach it."""
from __future__ import annotations

import re
from collections import Counter
from collections.abc import Mapping, Sequence
from dataclasses import dataclass
from pathlib import Path

import flask
from werkzeug.exceptions import BadRequest, NotFound

from classroom.views import draw
from classroom.verdict import witness
from classroom.exercise.exercise import Exercise
from classroom.web import questions as asked
from classroom.web import asked_page as askedpage
from classroom.web.questions import Text
from classroom.web.health import health
from classroom.web.course import Course

HOURS = 48
MOST_FAULTS = 20
HOSTS = ("127.0.0.1", "localhost")  # by which it is asked, at whatever port a tunnel has
HEADERS = {
    "Content-Security-Policy": (
        "default-src 'none'; style-src 'unsafe-inline'; img-src data:; base-uri 'none';"
        " frame-ancestors 'none'"
    ),
    "X-Content-Type-Options": "nosniff",
    "Referrer-Policy": "no-referrer",
    "Cache-Control": "no-store",
}


@dataclass(frozen=True)
class Watched:
    """An exercise with the file of what is asked of it."""

    given: Exercise
    log: Path


@dataclass(frozen=True)
class Part:
    """What is told of an exercise."""

    title: str
    address: str  # of its mistakes
    questions: int
    hours: Sequence[tuple[str, int]]  # the newest first
    refused: Sequence[tuple[str, int]]  # what was not read, the most frequent first
    doubts: Sequence[str]  # of references, by trials


@dataclass(frozen=True)
class Overview:
    title: str
    parts: tuple[Part, ...]
    running: int
    waiting: int


def part(name: str, watched: Watched) -> Part:
    texts = list(asked.texts(watched.log))
    faults: Counter[str] = Counter()
    for text in texts:
        fault = refused(text, watched.given)
        if fault:
            faults[fault] += text.count
    return Part(
        watched.given.title,
        f"mistakes/{name}" if name else "mistakes/",
        sum(text.count for text in texts),
        asked.by_hour(watched.log, HOURS),
        faults.most_common(MOST_FAULTS),
        doubts(texts, watched.given),
    )


def doubts(texts: Sequence[Text], given: Exercise) -> list[str]:
    """What trials showed of references alone, once a task."""
    return [
        f"Task {task.title}: {told}"
        for task in given.tasks
        for told in askedpage.doubts(askedpage.own(texts, task, given), task)
    ]


def refused(text: Text, given: Exercise) -> str:
    """Why a text was refused, without names and places; empty where it was not."""
    outcome = witness.read(text.ran, given.tables)
    if not isinstance(outcome, witness.Refused):
        return ""
    return (
        outcome.fault
        if outcome.fault.startswith("not supported")
        else outcome.fault.partition(":")[0].rstrip("0123456789 ")
    )


def application(course: Course, watched: Mapping[str, Watched]) -> flask.Flask:
    """The page over the files of all exercises."""
    app = flask.Flask("classroom.teacher", static_folder=None, template_folder=None)
    template = draw.environment().get_template("overview.html")

    def top() -> flask.Response:
        states = [one.asker.places.state() for one in course.served[:1]]
        page = Overview(
            course.title,
            tuple(part(name, one) for name, one in watched.items()),
            sum(run for run, _ in states),
            sum(wait for _, wait in states),
        )
        return flask.Response(template.render(page=page).encode("utf-8", "replace"))

    def mistakes(name: str = "") -> flask.Response:
        if name not in watched:
            raise NotFound
        return flask.Response(askedpage.page_for_teacher(watched[name].given, watched[name].log))

    app.add_url_rule("/", "top", top)
    app.add_url_rule("/mistakes/", "mistakes of the only one", mistakes)
    app.add_url_rule("/mistakes/<name>", "mistakes", mistakes)
    app.add_url_rule("/health", "health", lambda: health(course))

    @app.before_request
    def by_own_name() -> None:
        # A site whose name leads to this machine could else read the page in the teacher's browser.
        if re.sub(r":[0-9]+\Z", "", flask.request.host) not in HOSTS:
            raise BadRequest

    @app.after_request
    def safe(response: flask.Response) -> flask.Response:
        response.headers.update(HEADERS)
        return response

    return app
