"""The page where students ask, where a database answers what `ratest` doesn't read."""
from __future__ import annotations

import logging
import shutil
import sqlite3
import threading
import time
from collections.abc import Iterator
from pathlib import Path
from typing import Any, cast

import pytest
import shop
from products import TOP, classroom
from served import Reply, Server, serving

pytest.importorskip("flask")
pytest.importorskip("waitress")
pytest.importorskip("limits")

from classroom.verdict import witness  # noqa: E402
from classroom.process.limits import Limits  # noqa: E402
from classroom.web.questions import Log  # noqa: E402
from classroom.web.ask import Asker, Budget  # noqa: E402
from classroom.web.served_exercise import Material, Offered  # noqa: E402
from classroom.web.cache import Recent  # noqa: E402
from classroom.web.queue import Places  # noqa: E402
from classroom.exercise.window import Window  # noqa: E402
from classroom.engines.run_child import Failed, Options  # noqa: E402
from classroom.verdict.verdict import Cause, Refusal, Verdict  # noqa: E402
from classroom.grading.trials import Trial  # noqa: E402

ENGINE = f"sqlite {sqlite3.sqlite_version}"
COUNT = (
    "SELECT d.name, COUNT(l.beer) FROM drinker d LEFT JOIN likes l ON l.drinker = d.name GROUP BY"
    " d.name"
)


@pytest.fixture(scope="module")
def exercise(tmp_path_factory: pytest.TempPathFactory) -> Path:
    folder = tmp_path_factory.mktemp("served") / "beers"
    shutil.copytree(
        TOP / "examples/beers",
        folder,
        ignore=shutil.ignore_patterns("results", "teacher.html", "[1245]"),
    )
    (folder / "6").mkdir()
    (folder / "6/reference.sql").write_text(f"{COUNT} -- the secret of the reference\n")
    (folder / "7").mkdir()
    (folder / "7/reference.sql").write_text("SELECT DISTINCT bar FROM serves")
    return folder


@pytest.fixture(scope="module")
def server(ratest: Path, exercise: Path) -> Iterator[Server]:
    with serving(exercise, "--hourly", "0", ratest=ratest, tries=True) as made:
        yield made


def test_a_task_that_ratest_does_not_read_is_offered(server: Server) -> None:
    assert '<option value="6">' in server.send("GET", "/").body


def test_differs(server: Server) -> None:
    got = server.ask("6", COUNT.replace("l.beer", "*"))
    assert got.verdict == "differs (tried) on 1 row: other rows"
    assert f"A database found this by trying ({ENGINE}); it is not proved." in got.answer
    assert "No smaller lawful part of the rows differs: the only one was tried." in got.answer
    assert (
        "<caption>drinker</caption>" in got.answer and "INSERT INTO &#34;drinker&#34;" in got.answer
    )


def test_no_difference(server: Server) -> None:
    assert (
        server.ask(
            "6", "SELECT name, (SELECT COUNT(*) FROM likes WHERE drinker = name) FROM drinker"
        ).verdict
        == "no difference found (tried)"
    )


def test_wrong_sql_has_its_place(server: Server) -> None:
    got = server.ask("6", "\n SELECT name,\n  nosuch FROM drinker")
    assert (
        got.verdict == "wrong SQL: no such column: nosuch (line 3, column 3)"
        and "<mark" in got.answer
    )
    assert server.ask("6", 'SELECT "nosuch" FROM drinker').verdict.startswith(
        "wrong SQL: no such column: nosuch"
    )


def test_not_determined_and_what_is_barred(server: Server) -> None:
    assert server.ask("6", "SELECT name, COUNT(*) OVER () * 0 FROM drinker LIMIT 1").verdict in (
        "not determined (tried)",
        "differs (tried) on 3 rows: other rows",
    )
    assert server.ask("6", "SELECT printf('%d', 1)").verdict == "refused: it calls printf"
    assert (
        "The query is not read: it is a DELETE, and no query."
        in server.ask("6", "DELETE FROM drinker").answer
    )


def test_what_tools_put_around_a_query_is_left_out(server: Server) -> None:
    """Of what is proved and of what is tried; a place is one of the text as it was typed."""
    for task, query in (("3", (TOP / "examples/beers/3/reference.sql").read_text()), ("6", COUNT)):
        plain = server.ask(task, query)
        got = server.ask(task, f".headers on\n```sql\n{query.rstrip().removesuffix(';')};\n```\n")
        assert got.verdict == plain.verdict in ("agrees", "no difference found (tried)")
        assert "It was read without .headers on in line 1." in got.answer
        assert "It was read" not in plain.answer
    got = server.ask("6", "\\c beers\nSELECT name,\n  nosuch FROM drinker")
    assert got.verdict == "wrong SQL: no such column: nosuch (line 3, column 3)"
    got = server.ask("6", "SELECT name FROM drinker; SELECT 2")
    assert "The query is not read: more than one statement." in got.answer and not got.verdict
    assert "SELECT name FROM drinker; SELECT 2" in got.body
    got = server.ask("3", "SELECT name\u00a0FROM drinker")
    assert "It has a no-break space at line 1, column 12." in got.answer


def test_what_is_proved_stays_proved(server: Server) -> None:
    assert server.ask("3", (TOP / "examples/beers/3/reference.sql").read_text()).verdict == "agrees"
    assert (
        server.ask("3", (TOP / "examples/beers/3/answers/b.sql").read_text()).verdict
        == "differs on 5 rows"
    )
    # What it doesn't read of an answer is tried.
    assert (
        server.ask("3", "SELECT bar FROM serves GROUP BY bar HAVING COUNT(*) = 1").verdict
        == "no difference found (tried)"
    )


def test_duplicates_are_a_remark(server: Server) -> None:
    got = server.ask("7", "SELECT bar FROM serves")
    assert (
        got.verdict == "agrees"
        and "Agrees as a set; returns Joe&#39;s twice where the reference returns it once."
        in got.answer
    )


def test_nothing_of_the_reference_is_told(server: Server) -> None:
    for text in (
        COUNT.replace("l.beer", "*"),
        "SELECT nosuch FROM drinker",
        "SELECT sql FROM sqlite_schema",
        "SELECT 1, 2",
        "SELECT name, 1 FROM drinker ORDER BY 1",
    ):
        assert "secret" not in server.ask("6", text).body


def test_an_endless_query_has_an_answer_in_time(server: Server) -> None:
    begun = time.monotonic()
    got = server.ask(
        "6",
        (
            "WITH RECURSIVE r(n) AS (SELECT 1 UNION ALL SELECT n + 1 FROM r) SELECT 'x', count(*)"
            " FROM r"
        ),
    )
    assert got.status == 200 and got.verdict == "no verdict" and time.monotonic() - begun < 25


def test_many_ask_at_once(server: Server) -> None:
    got: list[Reply] = []

    def ask(number: int) -> None:
        got.append(
            server.ask(
                "6", f"{COUNT} HAVING COUNT(*) > {number % 3}", {"Cookie": f"visitor={number}"}
            )
        )

    threads = [threading.Thread(target=ask, args=(number,)) for number in range(8)]
    for thread in threads:
        thread.start()
    for thread in threads:
        thread.join()
    assert all(reply.status in (200, 503) for reply in got)
    found = {reply.verdict for reply in got if reply.status == 200}
    assert found and all(
        one == "no difference found (tried)" or one.startswith("differs (tried) on ")
        for one in found
    )


def test_what_was_asked_is_shown_with_it(server: Server, exercise: Path) -> None:
    server.ask("6", COUNT.replace("l.beer", "*"))
    assert classroom("page", exercise, "--asked").returncode == 0
    page = (exercise / "results/asked.html").read_text()
    assert "differs (tried) on 1 row: other rows" in page and "grade differs tried" in page


def test_the_rows_are_hidden_where_only_verdicts_are_shown(
    ratest: Path, exercise: Path, tmp_path: Path
) -> None:
    shutil.copytree(exercise, tmp_path / "beers")
    with serving(tmp_path / "beers", "--only-verdict", ratest=ratest, tries=True) as made:
        got = made.ask("6", COUNT.replace("l.beer", "*"))
        assert got.verdict == "differs (tried)" and "Amy" not in got.answer
        # A remark names no row either.
        got = made.ask("7", "SELECT bar FROM serves")
        assert (
            got.verdict == "agrees"
            and "Agrees as a set; returns a row another number of times." in got.answer
            and "Joe" not in got.answer
        )
        got = made.ask("6", f"{COUNT} UNION ALL {COUNT}")
        assert (
            got.verdict == "no difference found (tried)"
            and "returns a row another number of times" in got.answer
        )
        assert not any(
            name in got.answer.split("<form")[0].split("</textarea>")[-1]
            for name in ("Amy", "Ben", "Coy", "Dan")
        )


def test_older_files_of_questions_get_a_column(tmp_path: Path) -> None:
    path = tmp_path / "asked.db"
    log = Log(path, 10)
    log.close()
    database = sqlite3.connect(path)
    database.executescript("ALTER TABLE text DROP COLUMN trial; PRAGMA user_version = 2;")
    database.close()
    Log(path, 10).close()
    database = sqlite3.connect(path)
    assert database.execute("PRAGMA user_version").fetchone() == (3,)
    assert "trial" in [row[1] for row in database.execute("PRAGMA table_info(text)")]


def test_a_task_whose_reference_nothing_answers_is_not_offered(
    ratest: Path, exercise: Path, tmp_path: Path
) -> None:
    folder = tmp_path / "beers"
    shutil.copytree(exercise, folder)
    (folder / "8").mkdir()
    (folder / "8/reference.sql").write_text("SELECT nmae FROM bar")
    told = "classroom: task 8 is not offered: reference.sql: no such column: nmae\n"
    with serving(folder, ratest=ratest, tries=True, errors=told) as server:
        page = server.send("GET", "/").body
        assert '<option value="6">' in page and '<option value="8">' not in page
        assert server.ask("8", "SELECT name FROM bar").status == 404


def test_a_task_that_nothing_can_try_is_named(ratest: Path, exercise: Path, tmp_path: Path) -> None:
    folder = tmp_path / "beers"
    shutil.copytree(exercise, folder)
    (folder / "exercise.toml").write_text('hints = 0\nengine = "host=/nowhere dbname=none"\n')
    with serving(folder, ratest=ratest, tries=True, errors=None) as server:
        assert '<option value="6">' not in server.send("GET", "/").body
        told = server.errors.read_text()
    assert "nothing is tried" in told
    assert "classroom: task 6 is not offered: " in told


def test_ties_of_a_reference_are_on_the_page_of_the_teacher(
    ratest: Path, exercise: Path, tmp_path: Path
) -> None:
    exercise = Path(shutil.copytree(exercise, tmp_path / "beers"))
    most = "SELECT beer FROM serves GROUP BY beer ORDER BY COUNT(*) DESC"
    (exercise / "8").mkdir()
    (exercise / "8/reference.sql").write_text(f"{most} LIMIT 1")
    told = "reference.sql has ties, for example on the rows"
    with serving(
        exercise, "--hourly", "0", "--teacher-port", "0", ratest=ratest, tries=True
    ) as made:
        teacher = Server(made.process, made.teacher, made.errors)
        assert told not in teacher.send("GET", "/").body
        for answer in (f"{most}, beer LIMIT 1", f"{most}, beer DESC LIMIT 1"):
            assert told not in made.ask("8", answer).body
        assert teacher.send("GET", "/").body.count(f"Task 8: {told}") == 1
        assert teacher.send("GET", "/mistakes/").body.count(told) == 1


class Refuses:
    """In place of what tries: it ends as it is told."""

    def __init__(self, ends: Verdict | Failed) -> None:
        self.ends = ends

    def ask(self, reference: str, answer: str, agrees: bool = False) -> Verdict:
        if isinstance(self.ends, Failed):
            raise self.ends
        return self.ends


@pytest.mark.parametrize(
    ("ends", "told"),
    [
        (
            Verdict(ENGINE, Refusal(True, Cause.NAME, "no such column: secret")),
            f"{ENGINE} does not answer its reference",
        ),
        (
            Verdict(ENGINE, Refusal(True, Cause.LIMIT, "time")),
            f"{ENGINE} does not answer its reference",
        ),
        (
            Failed("its process ended with status 1", "KeyError: 'secret'"),
            "its process ended with status 1",
        ),
    ],
)
def test_what_a_database_says_of_a_reference_is_in_no_log(
    tmp_path: Path, caplog: pytest.LogCaptureFixture, ends: Verdict | Failed, told: str
) -> None:
    """The whole log, with --verbose."""
    (tmp_path / "0.reference").write_text("SELECT secret FROM drinker")
    task = Offered("1", "1", "", "0.reference", "", "", True)
    material = Material("", tmp_path, (task,), (), "", "", (), None, Window())
    trial = Trial(shop.material(), Options(), (), True)
    asker = Asker(
        material,
        (),
        Limits(),
        Budget(1),
        Places(1, 1, 1),
        Recent(1),
        "",
        trial,
        cast(Any, Refuses(ends)),
    )
    with caplog.at_level(logging.DEBUG):
        assert asker._tried(task, "SELECT 1", witness.Refused("query 1", "", None)) is None
    assert [record.getMessage() for record in caplog.records] == [f"task '1' is not tried: {told}"]
