"""The page of `classroom mark` as an application of Flask: a list of groups, and a page for each.

It has texts and points of students and writes marks, so it answers at this machine alone, to who has
the key of the address that the command printed. The key is for once: it is exchanged for a cookie. """
from __future__ import annotations

import hmac
import re
import secrets
import threading
from collections.abc import Callable, Mapping
from dataclasses import dataclass, replace

import flask
from werkzeug.exceptions import BadRequest, Forbidden, HTTPException, NotFound

from classroom.base.errors import Fault
from classroom.hints.mistake import Mistake
from classroom.marks import hand
from classroom.marks.mark_groups import Group
from classroom.views import draw, mark_page, outcomes
from classroom.views.draw import counted
from classroom.views.mark_page import Shown, Typed
from classroom.web.form_tokens import is_of_this_site
from classroom.web.marker import Changed, Marker, State, digest_of_line
from classroom.web.overview import HOSTS
from classroom.web.showing import Showing

MOST_FORM = 4 * hand.MOST_COMMENT + 10_000
MOST_KEYS = 20  # that are made anew where one was used already
SAID = {
    "saved": "Saved.",
    "removed": "Removed: the verdict decides again.",
    "undone": "Undone.",
    "nothing": "There is nothing to undo.",
    "lost": "class/marks.csv has changed since, and nothing was undone. It now says what stands below.",
}
OTHERS = "Somebody else has changed class/marks.csv meanwhile; those lines are kept."
CHANGED = (
    "class/marks.csv has changed since this page was shown, and your input is not written yet. The"
    " file now says {}. Save again to put your input in its place."
)
USED = "This address was used already. The command has printed a new one."
WRONG = "Open the address that the command printed."


class Keys:
    """The key of the address, and the cookie that it is exchanged for."""

    def __init__(self, tell: Callable[[str], None]) -> None:
        self._tell = tell  # prints the address with a key
        self._lock = threading.Lock()
        self._key = secrets.token_urlsafe(24)
        self._used: set[str] = set()
        self.cookie_name = f"mark-{secrets.token_hex(4)}"
        self._cookie = secrets.token_urlsafe(32)
        self.form = secrets.token_urlsafe(32)

    def tell(self) -> None:
        self._tell(self._key)

    @property
    def key(self) -> str:
        return self._key

    def exchanged(self, key: str) -> str | None:
        """The cookie for a key; None where it is none, or was used: then another one is told."""
        with self._lock:
            if hmac.compare_digest(key.encode("utf-8", "replace"), self._key.encode()):
                self._used.add(self._key)
                self._key = secrets.token_urlsafe(24)
                return self._cookie
            if key not in self._used or len(self._used) > MOST_KEYS:
                return None
        self.tell()
        return None

    def is_used(self, key: str) -> bool:
        return key in self._used

    def knows(self, request: flask.Request) -> bool:
        sent = request.cookies.get(self.cookie_name, "").encode("utf-8", "replace")
        return hmac.compare_digest(sent, self._cookie.encode())


@dataclass(frozen=True)
class Entry:
    """A group in the list."""

    at: int
    words: str
    kind: str
    common: str
    count: int
    open: int
    points: str


@dataclass(frozen=True)
class View:
    """What the page of a group shows beside it."""

    message: str = ""
    fault: str = ""
    typed: Typed | None = None  # what was sent and not written


class Pages:
    """The page for each request."""

    def __init__(
        self, marker: Marker, mistakes: Mapping[str, Mistake], names: bool, keys: Keys
    ) -> None:
        self.marker = marker
        self.mistakes = mistakes
        self.names = names
        self.keys = keys
        environment = draw.environment()
        self.templates = {
            name: environment.get_template(f"{name}.html") for name in ("mark", "marks")
        }
        self.style = str(environment.globals["style"]) + "".join(
            (draw.TEMPLATES / name).read_text(encoding="utf-8") for name in ("ask.css", "mark.css")
        )
        self.script = (draw.TEMPLATES / "mark.js").read_text(encoding="utf-8")

    def top(self) -> flask.Response:
        key = flask.request.args.get("key")
        if key is not None:
            cookie = self.keys.exchanged(key)
            if cookie is None and not self.keys.knows(flask.request):
                raise Forbidden(USED if self.keys.is_used(key) else WRONG)
            response = redirect("/")
            if cookie:
                response.set_cookie(self.keys.cookie_name, cookie, httponly=True, samesite="Strict")
            return response
        state, fault = self.marker.last_state()
        tasks: dict[str, list[Entry]] = {}
        for at, group in enumerate(self.marker.groups):
            tasks.setdefault(group.task.title, []).append(self.entry(state, at, group))
        for entries in tasks.values():
            entries.sort(key=lambda one: (not one.open, -one.count))
        text = self.templates["marks"].render(
            title=self.marker.given.title,
            fault=fault,
            tasks=tasks,
            summary=self.summary(state),
            first=self.marker.next_open(state, len(self.marker.groups) - 1),
            notes=state.book.notes
            if self.names
            else state.book.notes
            and (
                f"{counted(len(state.book.notes), 'line')} of class/marks.csv"
                " don’t count: classroom page tells which.",
            ),
        )
        return flask.Response(text.encode("utf-8", "replace"))

    def entry(self, state: State, at: int, group: Group) -> Entry:
        now = state.now(group)
        of = group.members[0].of
        line = self.marker.line(state, group, 0)
        return Entry(
            at,
            outcomes.whole_words(of) if of else "a file that could not be put to a task",
            outcomes.css(of) if of else "",
            mark_page.common(group, self.mistakes.get(of.record) if of else None),
            len(group.members),
            now.open,
            mark_page.typed(line).points,
        )

    def summary(self, state: State) -> str:
        open_ones = [state.now(group).open for group in self.marker.groups]
        groups = sum(map(bool, open_ones))
        return (
            f"{counted(sum(open_ones), 'answer')} open, in {groups} of"
            f" {counted(len(open_ones), 'group')}"
        )

    # ---- a group, or one of its answers

    def group(self, at: int, number: int = 0) -> flask.Response:
        self.check(at, number)
        said = SAID.get(flask.request.args.get("said", ""), "")
        if said and flask.request.args.get("others"):
            said = f"{said} {OTHERS}"
        return self.page(at, number, View(said))

    def check(self, at: int, number: int) -> None:
        if not 0 <= at < len(self.marker.groups):
            raise NotFound
        if not 0 <= number <= len(self.marker.groups[at].members):
            raise NotFound

    def page(self, at: int, number: int, view: View, status: int = 200) -> flask.Response:
        state, wrong = self.marker.last_state()
        if wrong and not view.fault:
            view = replace(view, fault=f"{wrong}. Nothing is written until it is mended.")
        group = state.now(self.marker.groups[at])
        line = self.marker.line(state, group, number)
        found: Shown = mark_page.shown(
            state.book, group, number, line, state.lines, self.mistakes, self.names
        )
        text = self.templates["mark"].render(
            page=found,
            title=self.marker.given.title,
            at=at,
            count=len(self.marker.groups),
            size=len(group.members),
            view=view,
            typed=view.typed or found.line,
            seen=digest_of_line(line),
            file=state.digest,
            key=self.keys.form,
            summary=self.summary(state),
            can_undo=self.marker.can_undo,
        )
        return flask.Response(text.encode("utf-8", "replace"), status)

    def send(self, at: int, number: int = 0) -> flask.Response:
        """Writes what the form says."""
        self.check_form()
        self.check(at, number)
        form = flask.request.form
        typed = Typed(form.get("points", ""), form.get("comment", ""), form.get("rule", ""))
        group = self.marker.groups[at]
        does = form.get("do", "save")
        try:
            before = self.marker.state().digest
            if does == "remove":
                self.marker.remove(at, number, form.get("seen", ""))
            else:
                line = self.marker.line_of(
                    group, number, typed.points.strip(), typed.comment, typed.rule
                )
                self.marker.put(at, number, line, form.get("seen", ""))
        except Changed:
            return self.page(at, number, View(fault=self.changed(at, number), typed=typed), 409)
        except Fault as fault:
            return self.page(at, number, View(fault=f"Not written: {fault}", typed=typed), 422)
        others = "&others=1" if form.get("file") not in (None, before) else ""
        if does == "remove" or number:
            where = f"/group/{at}/{number}" if number else f"/group/{at}"
            return redirect(f"{where}?said={'removed' if does == 'remove' else 'saved'}{others}")
        following = self.marker.next_open(self.marker.last_state()[0], at)
        if following is None:
            following = min(at + 1, len(self.marker.groups) - 1)
        return redirect(f"/group/{following}?said=saved{others}")

    def changed(self, at: int, number: int) -> str:
        state, _ = self.marker.last_state()
        line = self.marker.line(state, self.marker.groups[at], number)
        if line is None:
            return CHANGED.format("nothing of it")
        now = mark_page.typed(line)
        comment = f" with the comment “{now.comment}”" if now.comment else ""
        who = f" by {now.who}" if now.who else ""
        return CHANGED.format(f"{now.points} points{comment}{who}")

    def undo(self) -> flask.Response:
        self.check_form()
        at = flask.request.form.get("at", "")
        here = f"/group/{at if at.isascii() and at.isdigit() else 0}"
        try:
            done = self.marker.undo()
        except Changed:
            return redirect(f"{here}?said=lost")
        if done is None:
            return redirect(f"{here}?said=nothing")
        where = f"/group/{done.group}/{done.number}" if done.number else f"/group/{done.group}"
        return redirect(f"{where}?said=undone")

    def check_form(self) -> None:
        sent = flask.request.form.get("key", "").encode("utf-8", "replace")
        if not is_of_this_site(flask.request) or not hmac.compare_digest(
            sent, self.keys.form.encode()
        ):
            raise Forbidden("This form is not of the page that runs now. Load the page again.")


def redirect(where: str) -> flask.Response:
    return flask.Response("", 303, {"Location": where})


def application(
    marker: Marker, mistakes: Mapping[str, Mistake], names: bool, keys: Keys
) -> flask.Flask:
    """The pages over the groups of a marker."""
    pages = Pages(marker, mistakes, names, keys)
    app = flask.Flask("classroom.mark", static_folder=None, template_folder=None)
    app.config["MAX_CONTENT_LENGTH"] = MOST_FORM
    app.add_url_rule("/", "top", pages.top, methods=["GET"])
    for rule in ("/group/<int:at>", "/group/<int:at>/<int:number>"):
        app.add_url_rule(rule, f"show {rule}", pages.group, methods=["GET"])
        app.add_url_rule(
            rule, f"send {rule}", pages.send, methods=["POST"], provide_automatic_options=False
        )
    app.add_url_rule("/undo", "undo", pages.undo, methods=["POST"], provide_automatic_options=False)
    app.add_url_rule("/mark.css", "style", lambda: flask.Response(pages.style, mimetype="text/css"))
    app.add_url_rule(
        "/mark.js", "script", lambda: flask.Response(pages.script, mimetype="text/javascript")
    )

    @app.before_request
    def by_who_has_the_key() -> None:
        # A site whose name leads to this machine could else read the page in the teacher's browser.
        if re.sub(r":[0-9]+\Z", "", flask.request.host) not in HOSTS:
            raise BadRequest
        is_first = flask.request.path == "/" and "key" in flask.request.args
        if not is_first and not keys.knows(flask.request):
            raise Forbidden(WRONG)

    def plain(status: int, text: str) -> flask.Response:
        return flask.Response(f"{text}\n", status, mimetype="text/plain")

    app.register_error_handler(
        HTTPException, lambda fault: plain(fault.code or 500, str(fault.description))
    )
    app.register_error_handler(
        Fault, lambda fault: plain(500, f"{fault}. Mend it, and load again.")
    )

    @app.after_request
    def safe(response: flask.Response) -> flask.Response:
        for name, value in Showing().headers().items():
            response.headers.setdefault(name, value)
        return response

    return app
