"""The rule for late answers: which deduction, in which words, and by whose closing time."""
from __future__ import annotations

import csv
from datetime import datetime, timedelta, timezone
from decimal import Decimal
from pathlib import Path

import pytest
from products import classroom

from classroom.base.errors import Fault
from classroom.exercise import collected, settings
from classroom.exercise.collected import Collected
from classroom.exercise.settings import LateRule
from classroom.marks.late import late
from classroom.marks.mark import IN_TIME
from classroom.people import roster
from classroom.web.course import place_of_hand_ins
from classroom.web.hand_ins import HandIns
from classroom.web.questions import LOG

CLOSES = datetime(2026, 11, 20, 12, tzinfo=timezone.utc)
RULE = LateRule(10, 0.1, CLOSES + timedelta(days=7))


@pytest.mark.parametrize(
    ("minutes", "share", "words"),
    [
        (-60, "0", ""),
        (0, "0", ""),
        (1, "0", "late by 1 minute, which costs nothing"),
        (10, "0", "late by 10 minutes, which costs nothing"),
        (11, "0.1", "late by 11 minutes, one day begun"),
        (60, "0.1", "late by 1 hour, one day begun"),
        (24 * 60, "0.1", "late by 1 day, one day begun"),
        (24 * 60 + 1, "0.2", "late by 1 day 1 minute, two days begun"),
        (26 * 60 + 5, "0.2", "late by 1 day 2 hours, two days begun"),
        (7 * 24 * 60, "0.7", "late by 7 days, seven days begun"),
        (7 * 24 * 60 + 1, "1", "late by 7 days 1 minute, when nothing counted any more"),
    ],
)
def test_each_day_begun_costs(minutes: int, share: str, words: str) -> None:
    # The moment is the same, whichever zone it is written in.
    moment = (CLOSES + timedelta(minutes=minutes)).astimezone(timezone(timedelta(hours=5)))
    found = late(RULE, moment.isoformat(), CLOSES)
    assert (found.share, found.words) == (Decimal(share), words)


def test_no_deduction_is_above_all_points() -> None:
    month = (CLOSES + timedelta(days=30)).isoformat()
    assert late(LateRule(minus=0.1), month, CLOSES).share == 1


def test_what_is_not_known_is_not_taken_for_late() -> None:
    moment = (CLOSES + timedelta(days=1)).isoformat()
    assert (
        late(None, moment, CLOSES) == late(RULE, "", CLOSES) == late(RULE, moment, None) == IN_TIME
    )
    assert late(RULE, "late", CLOSES).is_unknown and late(None, "late", CLOSES) == IN_TIME


def test_extra_time_is_a_closing_time_of_its_own() -> None:
    listed = roster.list_of(
        "id,name,extra\na,Ann,\nb,Ben,90\nc,Cem,2026-11-27T12:00:00+00:00\nd,Dan,2026-11-29T12:00+01:00\n"
    )
    ann, ben, cem, dan = listed.students
    assert [one.closing(CLOSES) for one in (ann, ben, cem)] == [
        CLOSES,
        CLOSES + timedelta(minutes=90),
        CLOSES + timedelta(days=7),
    ]
    assert ben.closing(None) is None
    # An own time after the last moment of the others holds.
    eight = (CLOSES + timedelta(days=8)).isoformat()
    assert late(RULE, eight, dan.closing(CLOSES)) == IN_TIME
    assert late(RULE, eight, cem.closing(CLOSES)).share == 1


@pytest.mark.parametrize("extra", ["soon", "-5", "1.5", "2026-11-27T12:00:00", "1234567"])
def test_extra_time_is_minutes_or_a_moment(extra: str) -> None:
    with pytest.raises(Fault) as found:
        roster.list_of(f"id,name,extra\na,Ann,{extra}\n")
    assert str(found.value) == (
        f"line 2: extra {extra}: minutes are wanted, or a moment with its zone"
    )


@pytest.mark.parametrize(
    ("said", "why"),
    [
        ({"late": 1}, "late: a table is wanted"),
        ({"late": {"days": 1}}, "late.days: there is no such key"),
        ({"late": {"grace": -1}}, "late.grace: a number of minutes from 0 to 1e+06 is wanted"),
        ({"late": {"minus": 1.5}}, "late.minus: a part of the points from 0 to 1 is wanted"),
        ({"late": {"until": "soon"}}, "late.until: a moment with its zone is wanted"),
        ({"late": {"until": CLOSES}}, "late.until: a moment after `closes` is wanted"),
        (
            {"closes": CLOSES, "late": {"until": CLOSES}},
            "late.until: a moment after `closes` is wanted",
        ),
    ],
)
def test_the_rule_is_checked(said: dict[str, object], why: str) -> None:
    with pytest.raises(Fault) as found:
        settings.settings_of(said, [])
    assert str(found.value).startswith(why)


def test_answers_are_taken_until_the_last_moment() -> None:
    assert settings.Settings(closes=CLOSES).last_moment == CLOSES
    assert settings.Settings(closes=CLOSES, late=LateRule()).last_moment == CLOSES
    assert settings.Settings(closes=CLOSES, late=RULE).last_moment == RULE.until


def test_a_time_without_a_zone_is_refused(tmp_path: Path) -> None:
    collected.write_collected(tmp_path, [Collected("1", "a", "zip", "a.sql", "2026-11-20 12:00")])
    with pytest.raises(Fault, match="entry 2: 2026-11-20 12:00 in the column late"):
        collected.read_collected(tmp_path)


def handed_in(folder: Path, **times: str) -> None:
    """Right answers to task 1, handed in at these times."""
    (folder / "class").mkdir(exist_ok=True)
    for name in times:
        (folder / f"1/answers/{name}.sql").write_bytes((folder / "1/reference.sql").read_bytes())
    collected.write_collected(
        folder, [Collected("1", name, "page", f"{name}.sql", time) for name, time in times.items()]
    )


def table(path: Path) -> list[dict[str, str]]:
    with open(path, newline="", encoding="utf-8") as file:
        return list(csv.DictReader(file))


def test_late_answers_from_hand_in_to_feedback(graded: Path) -> None:
    """Of two points; the student with extra time is in time, and the one of whom a platform says
    `late` alone is open, by hand."""
    folder = graded
    (folder / "exercise.toml").write_text(
        f"closes = {CLOSES.isoformat()}\n[late]\ngrace = 10\nminus = 0.1\n[task.1]\npoints = 2\n"
    )
    moment = (CLOSES + timedelta(hours=26)).isoformat()
    handed_in(folder, a=moment, b=moment, c="late", d=CLOSES.isoformat())
    (folder / "class/students.csv").write_text(
        "id,name,moodle,extra\na,Ann,51,\nb,Ben,52,1600\nc,Cem,53,\nd,Dan,54,\n"
    )
    ran = classroom("grade", folder)
    assert ran.returncode == 1
    assert "  task 1: 1 answer: late, and it is not known by how much (c)" in ran.stdout
    points = {row["id"]: row["1"] for row in table(folder / "results/class.csv")}
    assert points == {"a": "1.6", "b": "2", "c": "by hand", "d": "2"}
    assert classroom("feedback", folder, "--for", "moodle").returncode == 0
    told = "late by 1 day 2 hours, two days begun: −0.4 of 2"
    assert told in (folder / "results/feedback/a.html").read_text()
    assert "late" not in (folder / "results/feedback/b.html").read_text().partition("<main")[2]
    moodle = {row["Identifier"][-2:]: row for row in table(folder / "results/feedback/moodle.csv")}
    assert told in moodle["51"]["Feedback comments"] and moodle["51"]["Grade"] == "1.6"
    # A person's points are final; on the page for the class the deduction is the same.
    (folder / "class/marks.csv").write_text(
        "task,student,text,mistake,outcome,points,comment,rule,by,time\n1,a,,,,1.5,,,,\n1,c,,,,1,,,,\n"
    )
    assert classroom("page", folder).returncode == 0
    points = {row["id"]: row["1"] for row in table(folder / "results/class.csv")}
    assert points == {"a": "1.5", "b": "2", "c": "1", "d": "2"}
    page = (folder / "results/teacher.html").read_text()
    assert page.count('aria-label="2: agrees"') == 2 and 'aria-label="1.5: agrees"' in page
    students = (folder / "results/students.html").read_text()
    assert "Ben" in page and "Ben" not in students and "aria-label" not in students


def test_a_late_hand_in_at_the_page_is_taken_until_the_last_moment(beers: Path) -> None:
    now = datetime.now(timezone.utc)
    closes, until = (now + timedelta(hours=hours) for hours in (-1, 100))
    (beers / "results").mkdir(exist_ok=True)
    hand_ins = HandIns(place_of_hand_ins(beers / "results" / LOG))
    receipt = hand_ins.put("zoe", "1", (beers / "1/reference.sql").read_text())
    hand_ins.close()
    (beers / "results" / LOG).touch()
    said = f"closes = {closes.isoformat()}\n"
    (beers / "exercise.toml").write_text(said)
    assert classroom("collect", "--asked", beers).stdout.startswith("0 students, 0 answers")
    (beers / "exercise.toml").write_text(
        f"{said}[late]\nminus = 0.25\nuntil = {until.isoformat()}\n"
    )
    assert classroom("collect", "--asked", beers).stdout.startswith("1 student, 1 answer: 1 new")
    assert [row["late"] for row in table(beers / "class/collected.csv")] == [
        receipt.time.isoformat()
    ]
    assert classroom("grade", beers).returncode == 0
    points = {row["id"]: row["1"] for row in table(beers / "results/class.csv")}
    assert points["zoe"] == "0.75"
