"""The page of `classroom mark`: who may see it, what it writes, and what it never loses."""
from __future__ import annotations

import csv
import io
import multiprocessing
import os
import re
import shutil
import signal
import time
from decimal import Decimal
from multiprocessing.connection import Connection
from pathlib import Path

import marking
import pytest
from marking import HEADER, NOT_READ
from products import classroom

from classroom.base.errors import Fault
from classroom.marks import hand, write_marks

pytest.importorskip("flask")
pytest.importorskip("waitress")


@pytest.fixture(scope="module")
def made_once(ratest: Path, tmp_path_factory: pytest.TempPathFactory) -> Path:
    return marking.make(tmp_path_factory.mktemp("marked") / "beers", 12)


@pytest.fixture
def beers(made_once: Path, tmp_path: Path) -> Path:
    """Of each task four open groups come first, by their texts."""
    return Path(shutil.copytree(made_once, tmp_path / "beers"))


def lines(folder: Path) -> list[dict[str, str]]:
    text = (folder / "class/marks.csv").read_text()
    return list(csv.DictReader(io.StringIO(text, newline="")))


def table(folder: Path, task: str) -> dict[str, str]:
    text = (folder / "results/class.csv").read_text()
    return {row["id"]: row[task] for row in csv.DictReader(io.StringIO(text, newline=""))}


def first_text(page: str) -> str:
    found = re.search(r"<pre tabindex=\"0\"><code>(.*?)</code>", page, re.DOTALL)
    assert found
    return re.sub(r"</?mark>", "", found[1]).strip()


def with_text(text: str, task: str) -> list[str]:
    return [f"s{at:03}" for at in range(12) if marking.text_of(at, task) == text]


def test_only_who_has_the_key_sees_it(beers: Path) -> None:
    with marking.marking(beers) as page:
        for path in ("/", "/group/0", "/mark.css", "/?key=", f"/?key={page.key}x", "/no"):
            status, headers, text = page.ask("GET", path)
            assert (status, headers["Content-Type"][:10]) == (403, "text/plain"), path
            assert "Set-Cookie" not in headers and "key=" not in text
        assert page.ask("POST", "/group/0", "points=1")[0] == 403
        # A site whose name leads here.
        status, headers, _ = page.ask("GET", f"/?key={page.key}", Host="evil.example")
        assert status == 400 and "Set-Cookie" not in headers
        page.enter()
        assert page.ask("GET", "/group/0")[0] == 200
        assert page.ask("GET", "/group/0", Host=f"evil.example:{page.port}")[0] == 400
        assert page.ask("GET", "/group/40")[0] == page.ask("GET", "/group/0/99")[0] == 404
        # The key was for once: another browser needs the one that is printed then.
        cookie, page.cookie = page.cookie, ""
        assert page.ask("GET", f"/?key={page.key}")[0] == 403
        assert page.process.stdout
        again = page.process.stdout.readline().strip()
        assert again.startswith(f"http://127.0.0.1:{page.port}/?key=") and page.key not in again
        assert page.ask("GET", again.partition(str(page.port))[2])[0] == 303
        page.cookie = cookie
        _, headers, text = page.ask("GET", "/group/0")
        assert "script-src 'self'" in headers["Content-Security-Policy"]
        assert headers["X-Frame-Options"] == "DENY" and headers["Cache-Control"] == "no-store"
        assert not re.search(r"\son\w+=|style=|<style|<script>", text)


def test_forms_of_others_change_nothing(beers: Path) -> None:
    with marking.marking(beers) as page:
        page.enter()
        shown = page.get("/group/0")
        hidden = dict(re.findall(r'<input type="hidden" name="(\w+)" value="([^"]*)">', shown))
        body = "points=1&key={key}&seen={seen}"
        for headers in ({"Sec_Fetch_Site": "cross-site"}, {"Origin": "http://evil.example"}):
            sent = body.format(**hidden)
            assert page.ask("POST", "/group/0", sent, **headers)[0] == 403
        assert page.ask("POST", "/group/0", body.format(key="", seen=""))[0] == 403
        assert page.ask("POST", "/undo", "at=0")[0] == 403
        assert page.ask("GET", "/undo")[0] == 405
        assert not (beers / "class/marks.csv").exists()
        assert page.ask("POST", "/group/0", body.format(**hidden))[0] == 303


def test_a_group_is_marked_at_once_and_an_answer_alone(beers: Path) -> None:
    with marking.marking(beers, "--by", "Ida") as page:
        page.enter()
        assert "in 20 of 40 groups" in page.get("/")
        shown = page.get("/group/0")
        text = first_text(shown)
        assert text in NOT_READ and not re.search(r"\bs0\d\d\b", shown)
        who = with_text(text, "1")
        assert f"{len(who)} marks, {len(who)} open" in shown
        status, where, _ = page.send("/group/0", points="0.5", comment="<b>so</b>\r\nso")
        assert (status, where) == (303, "/group/1?said=saved")
        # On the disk before the page says so.
        assert [
            (one["task"], one["points"], one["comment"], one["by"]) for one in lines(beers)
        ] == [("1", "0.5", "<b>so</b>\nso", "Ida")]
        assert "Saved." in page.get(where)
        # What was typed is offered again in this task, as text.
        again = page.get("/group/1")
        assert "&lt;b&gt;so&lt;/b&gt;\nso</button>" in again and "<b>so" not in again
        assert 'class="again"' not in page.get("/group/9")
        status, where, _ = page.send("/group/0/1", points="1")
        assert (status, where) == (303, "/group/0/1?said=saved")
        assert "its own mark" in page.get("/group/0")
        status, where, _ = page.send("/group/0", points="0.25")
        assert lines(beers)[0]["points"] == "1" and lines(beers)[1]["points"] == "0.25"
        status, where, _ = page.send("/group/0/1", do="remove")
        assert "Removed" in page.get(where) and len(lines(beers)) == 1
        status, _, text = page.send("/group/1", points="2", comment="kept")
        assert status == 422 and "points: 2: from 0 to 1, unless the rule is bonus" in text
        assert "\nkept</textarea>" in text and len(lines(beers)) == 1
    # The tables are those of the marks when it ends.
    found = table(beers, "1")
    assert {found[one] for one in who} == {"0.25"}


def test_what_is_undone(beers: Path) -> None:
    with marking.marking(beers) as page:
        page.enter()
        assert page.send("/group/0", points="1")[0] == 303
        assert page.send("/group/0", points="0.5")[0] == 303
        for points in (["1"], []):
            status, where, _ = undo(page)
            assert (status, where) == (303, "/group/0?said=undone")
            assert [one["points"] for one in lines(beers)] == points
        assert "There is nothing to undo" in page.get(undo(page)[1])
        # What somebody else made of the line since stays.
        assert page.send("/group/0", points="1")[0] == 303
        path = beers / "class/marks.csv"
        path.write_text(path.read_text().replace(",1,,", ",0.75,theirs,"))
        assert "nothing was undone" in page.get(undo(page)[1])
        assert lines(beers)[0]["comment"] == "theirs"


def undo(page: marking.Page) -> tuple[int, str, str]:
    shown = page.get("/group/0")
    key = re.search(r'name="key" value="([^"]*)"', shown)
    assert key
    status, headers, text = page.ask("POST", "/undo", f"at=0&key={key[1]}")
    return status, headers.get("Location", ""), text


def test_what_others_write_meanwhile_stays_and_is_shown(beers: Path) -> None:
    path = beers / "class/marks.csv"
    with marking.marking(beers) as page:
        page.enter()
        hidden = re.findall(
            r'<input type="hidden" name="(\w+)" value="([^"]*)">', page.get("/group/0")
        )
        body = "&".join(f"{name}={value}" for name, value in hidden)
        # Another line, by an editor: both are there, and the page says it.
        path.parent.mkdir(exist_ok=True)
        path.write_text(HEADER + "5,s000,,,,1,an editor,,,\n")
        status, headers, _ = page.ask("POST", "/group/0", f"{body}&points=0.5&comment=mine")
        assert status == 303 and "Somebody else has changed" in page.get(headers["Location"])
        assert [one["comment"] for one in lines(beers)] == ["mine", "an editor"]
        # The same line, by a second page: nothing is lost, and the page shows both.
        body = body.partition("&file=")[0]
        status, _, text = page.ask("POST", "/group/0", f"{body}&points=0.75&comment=other")
        assert status == 409 and "your input is not written yet" in text
        assert "0.5 points with the comment “mine”" in text
        assert 'value="0.75"' in text and "\nother</textarea>" in text
        assert [one["comment"] for one in lines(beers)] == ["mine", "an editor"]
        # A fault of the file is told with its place; what was typed stays on the page.
        good = path.read_text()
        path.write_text(good.replace("1,an editor", "7,an editor"))
        status, _, text = page.send("/group/0", points="0.1", comment="typed")
        assert status == 422 and "line 3, column points: 7: from 0 to 1" in text
        assert 'value="0.1"' in text and "\ntyped</textarea>" in text
        path.write_text(good)
        assert page.send("/group/0", points="0.1", comment="typed")[0] == 303
        assert [one["comment"] for one in lines(beers)] == ["typed", "an editor"]


def test_names_and_one_task_where_they_are_asked_for(beers: Path) -> None:
    with marking.marking(beers, "--names", "--task", "2") as page:
        page.enter()
        assert "in 4 of 8 groups" in page.get("/")
        shown = page.get("/group/0")
        for one in with_text(first_text(shown), "2"):
            assert f">{one}</a>" in shown
    ran = classroom("mark", beers, "--task", "9", "--no-browser")
    assert (ran.returncode, ran.stderr) == (1, "classroom: there is no task 9\n")


def test_an_earlier_mark_stands_beside_an_answer_with_another_text(beers: Path) -> None:
    (beers / "class").mkdir()
    who = with_text(NOT_READ[0], "1")[0]
    (beers / "class/marks.csv").write_text(HEADER + f"1,{who},0123456789ab,,,0.5,early,,Ida,noon\n")
    with marking.marking(beers, "--task", "1") as page:
        page.enter()
        pages = [page.get(f"/group/{at}") for at in range(8)]
        found = [one for one in pages if "The mark for an earlier text: 0.5" in one]
        assert [first_text(one) for one in found] == [NOT_READ[0]]
        assert "“early”, by Ida, noon." in found[0]


def writer(path: Path, told: Connection) -> None:
    """Writes a line after another, and tells each when it is on the disk."""
    most = most_of_beers()
    for at in range(1000):
        line = write_marks.line_of({"task": "1", "student": f"s{at:03}", "points": "1"}, most)
        write_marks.change(path, most, write_marks.putting([line]))
        told.send(at)


def most_of_beers() -> dict[str, Decimal]:
    return {task: Decimal(1) for task in "12345"}


def test_killed_at_forty_moments_nothing_confirmed_is_lost(tmp_path: Path) -> None:
    path = tmp_path / "class/marks.csv"
    context = multiprocessing.get_context("fork")
    for moment in range(40):
        ours, theirs = context.Pipe(False)
        process = context.Process(target=writer, args=(path, theirs))
        process.start()
        theirs.close()
        confirmed = ours.recv()
        # The moments lie across the steps of one writing, of some milliseconds.
        time.sleep(0.0007 * moment)
        process.kill()
        process.join()
        try:
            while True:
                confirmed = ours.recv()
        except EOFError:
            pass
        kept = {line.value for line in hand.read(path, most_of_beers())}
        assert {f"s{at:03}" for at in range(confirmed + 1)} <= kept, moment
        if moment % 10 == 9:
            path.unlink()
    # What a killed one left unfinished goes with the next line.
    line = write_marks.line_of({"task": "1", "student": "x", "points": "1"}, most_of_beers())
    write_marks.change(path, most_of_beers(), write_marks.putting([line]))
    assert [one.name for one in path.parent.iterdir()] == ["marks.csv"]


def test_a_server_that_is_killed_has_lost_nothing(beers: Path) -> None:
    for at, points in enumerate(("0.25", "0.5", "0.75")):
        with marking.marking(beers) as page:
            page.enter()
            # The first one that is open still.
            assert page.send("/group/0", points=points)[0] == 303
            page.process.send_signal(signal.SIGKILL)
        assert sorted(one["points"] for one in lines(beers)) == ["0.25", "0.5", "0.75"][: at + 1]


def test_on_a_full_disk_what_was_there_stays(tmp_path: Path) -> None:
    place = tmp_path / "disk"
    place.mkdir()
    if os.geteuid() != 0 or os.system(f"mount -t tmpfs -o size=65536 none {place} 2>/dev/null"):
        pytest.skip("a file system of its own is mounted by root alone")
    try:
        path, most = place / "marks.csv", most_of_beers()
        first = write_marks.line_of({"task": "1", "student": "a", "points": "1"}, most)
        write_marks.change(path, most, write_marks.putting([first]))
        before = path.read_bytes()
        try:
            (place / "filler").write_bytes(bytes(65536))
        except OSError:
            pass
        second = write_marks.line_of(
            {"task": "1", "student": "b", "points": "1", "comment": "so " * 3000}, most
        )
        with pytest.raises(Fault, match="marks.csv could not be written: No space left on device"):
            write_marks.change(path, most, write_marks.putting([second]))
        assert path.read_bytes() == before
        assert {one.name for one in place.iterdir()} == {"marks.csv", "filler"}
        (place / "filler").unlink()
        write_marks.change(path, most, write_marks.putting([second]))
        assert {line.value for line in hand.read(path, most)} == {"a", "b"}
    finally:
        os.system(f"umount --lazy {place}")
