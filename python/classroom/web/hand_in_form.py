"""What a student does with the own hand-ins: hands a text in, takes it back, lets an earlier one
count again."""
from __future__ import annotations

import logging

from classroom.base.errors import Fault
from classroom.base.files import NotRead
from classroom.sql.clean import text_of
from classroom.sql.tokens import is_blank
from classroom.web.course import Served
from classroom.web.exercise_page import View
from classroom.web.hand_ins import HandIns
from classroom.web.served_exercise import Offered
from classroom.web.visitors import Visitor

ACTIONS = ("hand in", "count", "take back")
TOO_LATE = "It is too late: nothing was changed."
EMPTY = "Not handed in: there is no query in it. What was handed in before still counts."
SAME = "This text is handed in already, and counts."
GONE = "There is no such text any more."
FAILED = "Not handed in: the server could not write it. Send it again in a few seconds."
log = logging.getLogger(__name__)


def done(
    served: Served, visitor: Visitor, task: Offered, action: str, text: str, number: str
) -> tuple[int, View]:
    """Does one of ACTIONS for the visitor's login; gives the status, and what the page shows. No
    text is lost: where it isn't taken it stands in the form."""
    hand_ins = served.hand_ins
    assert hand_ins is not None and visitor.login
    if served.material.window.state() != "open":
        return 403, View(task.name, text, TOO_LATE)
    try:
        if action == "hand in":
            return hand_in(hand_ins, served, visitor.login, task, text)
        is_done = action == "take back" or number.isascii() and number.isdigit()
        chosen = None if action == "take back" else int(number[:18]) if is_done else 0
        if not hand_ins.choose(visitor.login, task.name, chosen):
            return 404, View(task.name, text, GONE)
    except Fault as fault:
        log.error("%s", fault)
        return 503, View(task.name, text, FAILED)
    told = "Nothing counts as handed in" if chosen is None else "The earlier text counts again"
    return 200, View(task.name, text, told=f"{told} for task {task.title}.")


def hand_in(
    hand_ins: HandIns, served: Served, login: str, task: Offered, text: str
) -> tuple[int, View]:
    """Keeps the text as the login's answer, with its receipt."""
    if is_blank(text.replace(";", " "), served.material.dialect):
        return 200, View(task.name, text, EMPTY)
    before = hand_ins.kept(login).get(task.name, ())
    if any(kept.counts and kept.text == text for kept in before):
        return 200, View(task.name, text, SAME)
    receipt = hand_ins.put(login, task.name, text)
    try:
        text_of(text.encode("utf-8", "replace"), served.material.dialect)
        told = ""
    except NotRead as fault:
        told = f"It will be graded by hand: {fault}."
    return 200, View(task.name, text, receipt=receipt, told=told)
