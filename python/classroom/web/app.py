"""The pages, as an application of Flask: the exercises of a course, a form with the query and below
it the answer.

Everything works without a script; those that there are keep the page while the answer is looked
for, and make an editor of the field. No page asks for anything from elsewhere, which the
Content-Security-Policy tells the browser too. """
from __future__ import annotations

import logging
from dataclasses import replace

import flask
from werkzeug.exceptions import Forbidden, HTTPException, NotFound, Unauthorized

from classroom.base.errors import Fault
from classroom.views import draw
from classroom.hints.target import looked
from classroom.web.about import About
from classroom.engines.own_answer import OwnAnswer
from classroom.exercise.settings import Settings
from classroom.views.answer import REST, answer_of, tried
from classroom.web.questions import Question
from classroom.web.ask import MOST_BYTES, Answered, is_mistake, shows_rows
from classroom.web.course import Course, Served
from classroom.web.exercise_page import Page, View, by_task, ran_of
from classroom.web.form_tokens import TOKEN, FormTokens, is_of_this_site
from classroom.web.hand_in_form import ACTIONS, done
from classroom.web.hand_ins import Kept
from classroom.web.health import health
from classroom.web.hint_buttons import BUTTONS, Hinted, shown
from classroom.web.hint_buttons import REST as NO_MORE
from classroom.web.served_exercise import Offered
from classroom.web.showing import Showing
from classroom.web.visitors import Visitor, Visitors
from classroom.web.page_files import page_files
from classroom.web.queue import Busy
from classroom.sql.clean import CleanText, text_of
from classroom.base.files import NotRead
from classroom.views.for_student import told_of_text
from classroom.web.login import Behind, Front, login, network

# A form in which every byte of a query takes three.
MOST_FORM = 4 * MOST_BYTES
COOKIE = "visitor"
OLD_PAGE = "This page was older than the server: nothing was done with the text. Send it again."
NOT_RUN = "The query could not be run. Try it again in a few seconds."
log = logging.getLogger(__name__)


class Pages:
    """The page for each request."""

    def __init__(
        self, course: Course, visitors: Visitors, front: Front, showing: Showing, about: About
    ) -> None:
        self.course = course
        self.visitors = visitors
        self.front = front
        self.showing = showing
        self.about_page = about
        self.tokens = FormTokens()
        environment = draw.environment()
        self.templates = {
            name: environment.get_template(f"{name}.html") for name in ("ask", "course", "about")
        }
        self.files = page_files(str(environment.globals["style"]))

    # ---- who asks

    def visitor(self) -> Visitor:
        """Who sent the request; Unauthorized where a login is wanted and there is none."""
        request = flask.request
        name = login(request.environ, self.front)
        if self.front.user_header and not name:
            raise Unauthorized
        found: Visitor = self.visitors.visitor(
            request.cookies.get(COOKIE, ""), network(request.remote_addr or ""), name
        )
        return found

    def with_cookie(self, response: flask.Response, visitor: Visitor) -> flask.Response:
        if visitor.cookie:
            path = f"{flask.request.script_root}/"
            if self.showing.is_framed:
                # Werkzeug can't write the last word, by which a browser keeps the cookie to the
                # platform around.
                response.headers.add(
                    "Set-Cookie",
                    (
                        f"{COOKIE}={visitor.cookie}; Path={path}; HttpOnly; Secure; SameSite=None;"
                        " Partitioned"
                    ),
                )
            else:
                response.set_cookie(
                    COOKIE,
                    visitor.cookie,
                    path=path,
                    httponly=True,
                    samesite="Strict",
                    secure=flask.request.is_secure,
                )
        return response

    # ---- pages

    def top(self) -> flask.Response:
        """The course; or the exercise that it is."""
        only = self.course.named("")
        if only:
            return self.form("")
        visitor = self.visitor()
        states = [(one, one.material.window.state()) for one in self.course.served]
        text = self.templates["course"].render(
            page=self.course, exercises=states, top="", files=self.files
        )
        return self.with_cookie(flask.Response(text.encode("utf-8", "replace")), visitor)

    def served(self, name: str) -> Served:
        found = self.course.named(name)
        if found is None:
            raise NotFound
        return found

    def form(self, name: str) -> flask.Response:
        visitor = self.visitor()
        return self.with_cookie(self.page(self.served(name), visitor), visitor)

    def page(
        self, served: Served, visitor: Visitor, status: int = 200, view: View = View()
    ) -> flask.Response:
        page = Page(
            served,
            view,
            visitor,
            self.course,
            "../../" if served.name else "",
            self.files,
            served.material.window.state(),
            self.tokens.token(visitor),
            by_task(served.material, self.handed_in(served, visitor)),
        )
        return flask.Response(
            self.templates["ask"].render(page=page).encode("utf-8", "replace"), status
        )

    def handed_in(self, served: Served, visitor: Visitor) -> dict[str, list[Kept]]:
        """What the visitor handed in; nothing where the file can't be read at this moment."""
        if served.hand_ins is None or not visitor.login:
            return {}
        try:
            return served.hand_ins.kept(visitor.login)
        except Fault as fault:
            log.error("%s", fault)
            return {}

    def about(self) -> flask.Response:
        return flask.Response(self.about_text(self.about_page))

    def about_text(self, page: About) -> bytes:
        """The page about this one, or of a fault, with links that hold at any address and below any
        prefix."""
        top = "../" * (flask.request.path.count("/") - 1)
        text = self.templates["about"].render(page=page, top=top or "./", files=self.files)
        return text.encode("utf-8", "replace")

    def drawing(self, name: str) -> flask.Response:
        served = self.served(name)
        if served.material.drawing is None or served.material.window.state() == "before":
            raise NotFound
        return flask.Response(served.material.drawing, mimetype="image/svg+xml")

    # ---- questions

    def ask(self, name: str) -> flask.Response:
        """The answer to the form that was sent."""
        if not is_of_this_site(flask.request):
            raise Forbidden
        visitor = self.visitor()
        served = self.served(name)
        # A form is sent with lines that end with two characters.
        fields = {
            field: flask.request.form.get(field, "").replace("\r\n", "\n")
            for field in ("task", "query", "do", "step", "number", TOKEN)
        }
        task = served.material.task(fields["task"])
        if task is None or served.material.window.state() == "before":
            raise NotFound
        text = fields["query"]
        if len(text.encode("utf-8", "replace")) > MOST_BYTES:
            return self.page(
                served,
                visitor,
                413,
                View(task.name, "", f"The query has more than {MOST_BYTES} bytes."),
            )
        if not self.tokens.is_valid(fields[TOKEN], visitor):
            old = self.page(served, visitor, 409, View(task.name, text, OLD_PAGE))
            return self.with_cookie(old, visitor)
        if fields["do"] in ACTIONS:
            if served.hand_ins is None or not visitor.login:
                raise NotFound
            status, view = done(served, visitor, task, fields["do"], text, fields["number"])
            return self.page(served, visitor, status, view)
        try:
            clean = text_of(text.encode("utf-8", "replace"), served.material.dialect)
        except NotRead as fault:
            return self.page(
                served, visitor, 200, View(task.name, text, f"The query is not read: {fault}.")
            )
        query = clean.query.decode()
        try:
            if fields["do"] == "run":
                view = self.ran(served, task, text, query, visitor)
                return self.with_cookie(self.page(served, visitor, 200, view), visitor)
            answered = served.asker.ask(task, query, visitor)
            hinted = self.hinted(
                served,
                query,
                answered,
                visitor,
                fields["step"] if fields["do"] == "hint" else "",
            )
        except Busy:
            busy = self.page(
                served,
                visitor,
                503,
                View(task.name, text, "Too many ask at this moment. Ask again in a few seconds."),
            )
            busy.headers["Retry-After"] = "3"
            return busy
        if fields["do"] != "hint":
            self.keep(served, clean, answered, visitor)
        answer = answer_of(
            answered.outcome,
            query,
            served.material.tables,
            served.asker.limits.seconds,
            self.hides(answered, visitor),
            answered.trial,
            served.material.settings,
            served.asker.is_proved,
        )
        answer = replace(answer, told=f"{answer.told}{told_of_text(clean)}".strip())
        return self.with_cookie(
            self.page(served, visitor, 200, View(task.name, text, "", answer, None, hinted)),
            visitor,
        )

    def ran(self, served: Served, task: Offered, text: str, query: str, visitor: Visitor) -> View:
        """What the query returns by itself; nothing of a reference is asked for it."""
        found = served.asker.run(query, visitor)
        if found is None:
            return View(task.name, text, NOT_RUN)
        if isinstance(found, OwnAnswer):
            return View(task.name, text, ran=ran_of(found))
        return View(task.name, text, answer=tried(found, query, "", False, Settings()))

    def hinted(
        self,
        served: Served,
        text: str,
        answered: Answered,
        visitor: Visitor,
        step: str,
    ) -> Hinted | None:
        """What is shown of hints where this step is asked for, as a digit; none is where it is
        empty. Each counts as a counterexample does."""
        hinter = served.hinter
        if hinter is None or self.showing.only_verdict or not hinter.is_open():
            return None
        how = looked(is_mistake(answered.outcome), answered.trial, served.material.settings)
        if how is None or not hinter.knows(how):
            return None
        if step not in ("1", "2", "3"):
            return Hinted(button=BUTTONS[0])
        if not self.visitors.may_see(visitor, f"{answered.key} hint {step}"):
            return Hinted((NO_MORE,))
        return shown(hinter.steps(answered.key, answered.task, text, visitor, how), int(step), text)

    def keep(self, served: Served, clean: CleanText, answered: Answered, visitor: Visitor) -> None:
        size = len(clean.query) + len(answered.ran.stdout) + len(answered.ran.stderr)
        if not self.visitors.may_keep(visitor, size):
            return
        told = served.asker.graded(answered, clean)
        served.log.keep(
            Question(
                answered.key,
                served.material.digest,
                answered.task.digest,
                answered.task.name,
                clean.query.decode(),
                told.grade,
                answered.ran,
                answered.trial,
            )
        )

    def hides(self, answered: Answered, visitor: Visitor) -> str | None:
        """What stands in place of a counterexample; None where it is shown."""
        if self.showing.only_verdict:
            return ""
        if not shows_rows(answered.outcome, answered.trial) or self.visitors.may_see(
            visitor, answered.key
        ):
            return None
        return REST

    def fault(self, fault: HTTPException) -> flask.Response:
        """A request that can't be answered, by its status alone."""
        status = fault.code or 500
        told = {
            401: "A login is wanted.",
            403: "A form of another site is not read.",
            404: "There is no such page or task.",
            405: "This is not how the page is asked.",
            413: f"The query has more than {MOST_BYTES} bytes.",
        }.get(status, "This request can't be answered.")
        page = flask.Response(self.about_text(replace(self.about_page, fault=told)), status)
        if status == 405:
            page.headers["Allow"] = "GET, HEAD, POST"
        return page


def application(
    course: Course, visitors: Visitors, front: Front, showing: Showing, about: About
) -> flask.Flask:
    """The application over what it asks and what it keeps."""
    pages = Pages(course, visitors, front, showing, about)
    app = flask.Flask("classroom.server", static_folder=None, template_folder=None)
    app.url_map.merge_slashes = False
    app.config["MAX_CONTENT_LENGTH"] = MOST_FORM
    app.add_url_rule("/", "top", pages.top, methods=["GET"])
    app.add_url_rule("/e/<name>/", "form", pages.form, methods=["GET"])
    app.add_url_rule("/relations.svg", "drawing of the only one", lambda: pages.drawing(""))
    app.add_url_rule("/e/<name>/relations.svg", "drawing", pages.drawing)
    app.add_url_rule(
        "/",
        "ask the only one",
        lambda: pages.ask(""),
        methods=["POST"],
        provide_automatic_options=False,
    )
    app.add_url_rule(
        "/e/<name>/", "ask", pages.ask, methods=["POST"], provide_automatic_options=False
    )
    app.add_url_rule("/about", "about", pages.about)
    app.add_url_rule("/health", "health", lambda: health(course))
    for file in pages.files.values():
        app.add_url_rule(f"/{file.name}", file.name, file.response)
    app.register_error_handler(HTTPException, pages.fault)

    @app.after_request
    def safe(response: flask.Response) -> flask.Response:
        for name, value in showing.headers().items():
            response.headers.setdefault(name, value)
        return response

    app.wsgi_app = Behind(app.wsgi_app, front)  # type: ignore[assignment]
    return app
