"""`classroom grade` on this machine: what it writes, what it survives, and what it refuses."""
from __future__ import annotations

import csv
import io
import json
import os
import random
import shutil
import signal
import subprocess
import time
from collections.abc import Callable
from pathlib import Path

import made_class
import pytest
from kept import same
from products import TOP, classroom, run

from classroom.process import hosts
from classroom.process import remote as worker
from classroom.process.limits import Ran

FULL = bool(os.environ.get("CLASSROOM_FULL"))
PYTHON = "/usr/bin/python3"
SLEEP = "sleep\x00100\x00"  # the words of a process, as /proc has them


def lines(exercise: Path) -> dict[tuple[str, str], list[str]]:
    """What grades.csv tells of each answer: grade, rows, and fault. Its points follow from the
    grade."""
    text = (exercise / "results/grades.csv").read_text(encoding="utf-8")
    found = list(csv.reader(io.StringIO(text, newline="")))
    assert found[0] == [
        "task",
        "answer",
        "grade",
        "points",
        "decided_by",
        "rows",
        "seconds",
        "fault",
        "text",
        "outcome",
    ]
    assert len({(line[0], line[1]) for line in found[1:]}) == len(found) - 1
    for line in found[1:]:
        assert line[3] == {"agrees": "1", "differs": "0", "wrong SQL": "0"}.get(line[2], "")
    return {(line[0], line[1]): [line[2], line[5], line[7]] for line in found[1:]}


def single(folder: Path, **answers: str) -> Path:
    """An exercise of a single task at the top, with these answers."""
    (folder / "answers").mkdir(parents=True)
    (folder / "schema.sql").write_text("CREATE TABLE t (a INTEGER, b INTEGER);")
    (folder / "t.csv").write_text("a,b\n1,10\n2,20\n3,30\n")
    (folder / "reference.sql").write_text("SELECT * FROM t WHERE a > 1")
    for name, text in answers.items():
        (folder / "answers" / f"{name}.sql").write_bytes(text.encode())
    return folder


def test_beers(ratest: Path, beers: Path) -> None:
    ran = classroom("grade", "--only-proved", beers)
    assert (ran.returncode, ran.stderr) == (0, "")
    assert ran.stdout == f"15 answers: 15 differ\nsee {beers}/results/grades.csv\n"
    sizes = {"1": "777", "2": "212", "3": "556", "4": "164", "5": "633"}
    assert lines(beers) == {
        (task, name): ["differs", size, ""]
        for task, row in sizes.items()
        for name, size in zip("abc", row)
    }
    assert (
        (beers / "results/tasks/3/b.txt").read_text()
        == """status 1
witness: 5
bar 1: 'Joe''s', 'Durham'
beer 1: 'Dixie', 'Dixie Brewing'
beer 2: 'Corona', 'Grupo Modelo'
serves 1: 'Joe''s', 'Dixie', 3
serves 2: 'Joe''s', 'Corona', NULL
only query 1: 0
only query 2: 1
  'Joe''s'
both: 0
"""
    )


def test_each_grade(ratest: Path, tmp_path: Path) -> None:
    exercise = single(
        tmp_path / "one task",
        right="SELECT a, b FROM t WHERE a >= 2",
        wrong="SELECT * FROM t WHERE a > 2",
        refused='SELECT "x\nt: agree\nall 9: agrees" FROM t',
        large="SELECT x.* FROM "
        + ", ".join(f"t x{number}" for number in range(40)).replace("t x0", "t x"),
    )
    ran = classroom("grade", "--only-proved", exercise)
    assert ran.returncode == 1
    assert (
        ran.stdout.splitlines()[0]
        == "4 answers: 1 agrees, 1 differs, 1 is not read, 1 has no verdict"
    )
    assert (
        ran.stderr
        == "classroom: 1 answer past a limit: `classroom pick` keeps the few rows that tell the"
        " mistakes\nclassroom: 2 of 4 answers are to be graded by hand\n"
    )
    task = "one task"
    told = lines(exercise)
    assert told[task, "right"] == ["agrees", "", ""]
    assert told[task, "wrong"] == ["differs", "1", ""]
    assert told[task, "refused"] == ["not read", "", "unknown column: x\nt: agree\nall 9: agrees"]
    assert told[task, "large"][0] == "no verdict" and told[task, "large"][2].startswith(
        "passes a limit: work "
    )
    tests = json.loads((exercise / "results/results.json").read_text())["tests"]
    assert tests == [
        {
            "name": "one task/right",
            "score": 1,
            "max_score": 1,
            "status": "passed",
            "decided_by": "proved",
            "output": "agree\n",
        },
        {
            "name": "one task/wrong",
            "score": 0,
            "max_score": 1,
            "status": "failed",
            "decided_by": "proved",
            "output": (
                "witness: 1\nt 2: 2, 20\nonly query 1: 1\n  2, 20\nonly query 2: 0\nboth: 0\n"
            ),
        },
    ]


def test_limits_of_time_and_memory(ratest: Path, tmp_path: Path) -> None:
    """An answer that passes a limit has no verdict in time; the others go on."""
    exercise = single(tmp_path / "limits", fine="SELECT * FROM t WHERE a > 2")
    (exercise / "t.csv").write_text("a,b\n" + "".join(f"{at},{at * 7 % 90}\n" for at in range(90)))
    heavy = "SELECT x0.* FROM t x0, t x1, t x2 WHERE x0.a + x1.b <> x2.a AND x0.b + x1.a <> x2.b"
    (exercise / "answers/heavy.sql").write_text(heavy)
    ran = classroom("grade", "--only-proved", exercise, "--time", "0.05", "--memory", "2000")
    assert ran.returncode == 1 and "answers are to be graded by hand" in ran.stderr
    assert lines(exercise)["limits", "heavy"] == ["no verdict", "", "passes the limit of time"]
    ran = classroom("grade", "--only-proved", exercise, "--memory", "25")
    assert ran.returncode == 1
    assert lines(exercise)["limits", "heavy"] == ["no verdict", "", "passes the limit of memory"]
    assert lines(exercise)["limits", "fine"][0] == "differs"


def test_conflicts(ratest: Path, beers: Path) -> None:
    ran = classroom("grade", "--only-proved", beers, "--conflicts", "1")
    assert ran.returncode in (0, 1)
    assert {grade for grade, _, _ in lines(beers).values()} <= {"differs", "no verdict"}


def test_no_other_line_is_a_result(tmp_path: Path) -> None:
    """What else a host prints, as the greeting of its shell, is passed over; results come by their
    keys."""
    ran = Ran(3, b'["k", 0, "agree"]\n', b"ratest: query 2: unknown column: x\n[]\n\xff", 0.5, "")
    (tmp_path / "printed").write_text(
        "Welcome\n[motd]\n[1, 2]\n{}\n" + worker.line("k", ran) + '[]\n\n["k", 0, 1, 2, 3, 4]\n'
    )
    found = list(hosts.lines(["cat", "printed"], tmp_path))
    assert found == [("k", ran)]


def test_what_changed_runs_anew(graded: Path) -> None:
    beers = graded
    runs = beers / "results/runs"
    before = {path.name: path.stat().st_mtime_ns for path in runs.iterdir()}

    def rerun() -> int:
        ran = classroom("grade", "--only-proved", beers)
        assert ran.returncode == 0, ran.stderr
        now = {path.name: path.stat().st_mtime_ns for path in runs.iterdir()}
        assert len(now) == 15
        return len(set(now.items()) - set(before.items()))

    assert rerun() == 0
    answer = beers / "3/answers/b.sql"
    answer.write_text(answer.read_text() + "-- once more\n")
    assert rerun() == 1
    (beers / "2/reference.sql").write_text((beers / "2/reference.sql").read_text() + ";")
    assert rerun() == 4
    (beers / "beer.csv").write_text((beers / "beer.csv").read_text() + "Bud,Anheuser\n")
    assert rerun() == 15
    (beers / "4/answers/c.sql").rename(beers / "4/answers/d.sql")
    assert rerun() == 15
    assert sorted(path.name for path in (beers / "results/tasks/4").iterdir()) == [
        "a.txt",
        "b.txt",
        "d.txt",
    ]


def test_same_bytes_are_run_once(ratest: Path, tmp_path: Path) -> None:
    exercise = single(tmp_path / "x", **{f"n{number}": "SELECT * FROM t" for number in range(300)})
    assert classroom("grade", "--only-proved", exercise).returncode == 0
    assert len(list((exercise / "results/runs").iterdir())) == 1
    assert len(lines(exercise)) == 300


def test_killed_at_any_moment(ratest: Path, tmp_path: Path) -> None:
    """A run that is killed goes on where it was, to the same bytes."""
    count, kills = (2000, 10) if FULL else (100, 4)
    made_class.make(tmp_path / "whole/class", count)
    shutil.copytree(tmp_path / "whole/class", tmp_path / "killed/class")
    begun = time.monotonic()
    told = classroom("grade", "--only-proved", tmp_path / "whole/class")
    assert (told.returncode, told.stderr) == (1, made_class.left(tmp_path / "whole/class"))
    whole = time.monotonic() - begun
    chosen = random.Random(10)
    for _ in range(kills):
        process = subprocess.Popen(
            [TOP / "classroom", "grade", "--only-proved", tmp_path / "killed/class"],
            stdout=subprocess.DEVNULL,
            stderr=subprocess.DEVNULL,
            start_new_session=True,
        )
        time.sleep(chosen.uniform(0, whole / 3))
        process.send_signal(signal.SIGKILL)
        process.wait()
    ran = classroom("grade", "--only-proved", tmp_path / "killed/class")
    assert (ran.returncode, ran.stdout.replace("/killed/", "/whole/"), ran.stderr) == (
        1,
        told.stdout,
        told.stderr,
    )
    same(tmp_path / "whole/class", tmp_path / "killed/class")
    assert sorted(path.name for path in (tmp_path / "killed/class/results").iterdir()) == [
        "answers.json",
        "class.csv",
        "grades.csv",
        "results.json",
        "runs",
        "students.html",
        "tasks",
        "teacher.html",
        "written.json",
    ]


def at_work(folder: Path) -> list[str]:
    """The processes that run in a folder."""
    found = []
    for process in Path("/proc").glob("[0-9]*"):
        try:
            if os.readlink(process / "cwd").startswith(str(folder)):
                found.append((process / "cmdline").read_text())
        except OSError:
            pass
    return found


def endless(folder: Path) -> Path:
    """An exercise, beside a program that stands for `ratest` and sleeps where the queries
    differ."""
    program = folder / "ratest"
    program.write_text('#!/bin/sh\ncmp -s "$3" "$4" && echo agree || exec sleep 100\n')
    program.chmod(0o755)
    return single(folder / "x", endless="SELECT * FROM t")


def begun(exercise: Path, errors: int) -> subprocess.Popen[bytes]:
    """A run that grades it with that program."""
    return subprocess.Popen(
        [TOP / "classroom", "grade", "--only-proved", exercise],
        stdout=subprocess.DEVNULL,
        stderr=errors,
        start_new_session=True,
        env={**os.environ, "RATEST": str(exercise.parent / "ratest")},
    )


def comes_to_rest(folder: Path) -> bool:
    """Whether within ten seconds nothing runs in a folder any more."""
    for _ in range(200):
        if not at_work(folder):
            return True
        time.sleep(0.05)
    return False


@pytest.mark.parametrize("number", [signal.SIGKILL, signal.SIGTERM, signal.SIGINT])
def test_nothing_runs_on(tmp_path: Path, number: signal.Signals) -> None:
    """What a run that is stopped started ends with it."""
    exercise = endless(tmp_path)
    process = begun(exercise, subprocess.PIPE)
    for _ in range(2000):
        if any(words == SLEEP for words in at_work(exercise / "results")):
            break
        time.sleep(0.05)
    assert any(words == SLEEP for words in at_work(exercise / "results"))
    if number == signal.SIGINT:
        os.killpg(process.pid, number)
    else:
        process.send_signal(number)
    _, told = process.communicate()
    if number == signal.SIGINT:
        assert process.returncode == 130
        assert told == b"classroom: stopped; the same command goes on from here\n"
    assert comes_to_rest(exercise / "results")


def test_nothing_runs_on_that_has_just_begun(tmp_path: Path) -> None:
    """The same where the run is killed while what it starts is still starting."""
    exercise = endless(tmp_path)
    chosen = random.Random(7)
    for _ in range(12):
        process = begun(exercise, subprocess.DEVNULL)
        while not at_work(exercise / "results") and process.poll() is None:
            time.sleep(0.01)
        time.sleep(chosen.uniform(0, 0.5))
        process.kill()
        process.wait()
        assert comes_to_rest(exercise / "results")


def test_progress_is_shown_on_a_terminal_alone(ratest: Path, beers: Path) -> None:
    master, slave = os.openpty()
    process = subprocess.Popen(
        [TOP / "classroom", "grade", "--only-proved", beers],
        stdout=subprocess.DEVNULL,
        stderr=slave,
    )
    os.close(slave)
    told = b""
    try:
        while part := os.read(master, 10_000):
            told += part
    except OSError:
        pass
    assert process.wait() == 0
    assert b"100%" in told


def test_a_second_run_at_once_is_refused(ratest: Path, beers: Path) -> None:
    code = (
        "import sys, time; from pathlib import Path; from classroom.grading.store import Results\nwith"
        f" Results(Path({str(beers / 'results')!r})).held(): print('held', flush=True);"
        " time.sleep(60)"
    )
    holder = subprocess.Popen(
        [PYTHON, "-c", code], stdout=subprocess.PIPE, env={"PYTHONPATH": str(TOP / "python")}
    )
    assert holder.stdout and holder.stdout.readline() == b"held\n"
    ran = classroom("grade", "--only-proved", beers)
    holder.kill()
    holder.wait()
    assert (ran.returncode, ran.stderr) == (
        1,
        f"classroom: {beers}/results: another run is at work here\n",
    )
    assert classroom("grade", "--only-proved", beers).returncode == 0


NAMES = [
    "-rf",
    "two words",
    'it\'s "so"',
    "line\nend",
    "$(touch hacked)",
    "`x`;&|",
    "é☃",
    b"not\xffutf".decode("utf-8", "surrogateescape"),
    "{}",
    "{#}",
    "%s",
    "a\\b",
    "*",
    "x" * 251,
    "a,b",
    "=1+1",
    "\x01\x1b[31m",
    "--help",
]


def test_names(ratest: Path, tmp_path: Path) -> None:
    exercise = single(
        tmp_path / "-odd 'name'\n$(x)",
        **{name: f"SELECT * FROM t WHERE a > {at}" for at, name in enumerate(NAMES)},
    )
    ran = classroom("grade", "--only-proved", "--", exercise)
    assert (ran.returncode, ran.stderr) == (0, "")
    told = lines(exercise)
    assert len(told) == len(NAMES)
    labels = [os.fsencode(name).decode("utf-8", "backslashreplace") for name in NAMES]
    labels = [f"'{label}" if label[0] in "=+-@" else label for label in labels]
    task = f"'{exercise.name}"
    assert told[task, labels[1]] == ["agrees", "", ""]
    assert [told[task, label][0] for label in labels[2:]] == ["differs"] * (len(NAMES) - 2)
    for name in NAMES:
        assert (
            (exercise / "results/tasks" / exercise.name / f"{name}.txt")
            .read_bytes()
            .startswith(b"status ")
        )
    assert classroom("page", "--", exercise).returncode == 0


def test_bad_answers(ratest: Path, tmp_path: Path) -> None:
    """What can't be read is told by its name, and the others are graded."""
    exercise = single(tmp_path / "x", good="SELECT * FROM t WHERE a > 2")
    answers = exercise / "answers"
    (answers / "folder.sql").mkdir()
    (answers / "away.sql").symlink_to(tmp_path / "nosuch")
    os.mkfifo(answers / "pipe.sql")
    (answers / "notes.txt").write_text("no answer")
    (answers / ".hidden.sql").write_text("no answer")
    told = dict.fromkeys(("folder", "away", "pipe"), "no plain file")
    if os.getuid():
        (answers / "closed.sql").write_text("x")
        (answers / "closed.sql").chmod(0)
        told["closed"] = "Permission denied"
    ran = classroom("grade", "--only-proved", exercise)
    assert ran.returncode == 1
    assert set(ran.stderr.splitlines()) == {
        "classroom: answers/notes.txt is not graded: its name is not that of an answer, NAME.sql",
        "classroom: answers/.hidden.sql is not graded: its name is not that of an answer, NAME.sql",
        f"classroom: {len(told)} of {len(told) + 1} answers are to be graded by hand",
    }
    assert lines(exercise)["x", "good"] == ["differs", "1", ""]
    assert {name: lines(exercise)["x", name] for name in told} == {
        name: ["not read", "", why] for name, why in told.items()
    }


FAULTS: dict[str, tuple[Callable[[Path], object], str]] = {
    "no schema": (lambda folder: os.unlink(folder / "schema.sql"), "{folder}: no file schema.sql"),
    "no rows": (
        lambda folder: os.unlink(folder / "bar.csv"),
        "{folder}: the table bar has no file bar.csv",
    ),
    "bad schema": (
        lambda folder: (folder / "schema.sql").write_text("CREATE TABLE"),
        "{folder}: schema: syntax fault near byte 12",
    ),
    "bad rows": (
        lambda folder: (folder / "bar.csv").write_text("name\n"),
        "{folder}: table bar: header differs from the schema",
    ),
    "two kinds": (
        lambda folder: (folder / "reference.sql").write_text("SELECT name FROM bar"),
        "{folder}: a task at the top and tasks in folders, as 1",
    ),
    "one name": (
        lambda folder: [shutil.copytree(folder / "1", folder / name) for name in ("a", "A")],
        "two tasks of one name: A and a",
    ),
    "no tasks": (
        lambda folder: run("rm", "-r", *(folder / name for name in "12345")),
        "{folder}: no task: neither reference.sql nor a folder with one",
    ),
}


@pytest.mark.parametrize("name", list(FAULTS))
def test_faults_of_an_exercise(graded: Path, name: str) -> None:
    spoil, told = FAULTS[name]
    before = (graded / "results/grades.csv").read_bytes()
    spoil(graded)
    ran = classroom("grade", "--only-proved", graded)
    assert (ran.returncode, ran.stdout, ran.stderr) == (
        1,
        "",
        f"classroom: {told.format(folder=graded)}\n",
    )
    assert (graded / "results/grades.csv").read_bytes() == before


def test_no_folder(tmp_path: Path) -> None:
    ran = classroom("grade", "--only-proved", tmp_path / "nosuch")
    assert (ran.returncode, ran.stderr) == (1, f"classroom: there is no folder {tmp_path}/nosuch\n")


def test_options_that_ratest_does_not_take(ratest: Path, beers: Path) -> None:
    ran = classroom("grade", "--only-proved", beers, "--work", "1000000000000")
    assert (ran.returncode, ran.stderr) == (
        1,
        "classroom: `ratest` doesn't take --work 1000000000000\n",
    )


@pytest.mark.parametrize(
    "words",
    [
        ["grade"],
        [],
        ["nosuch"],
        ["grade", "x", "--jobs", "0"],
        ["grade", "x", "--time", "x"],
        ["grade", "x", "--memory", "-1"],
        ["grade", "x", "y"],
    ],
)
def test_usage(words: list[str]) -> None:
    ran = classroom(*words)
    assert ran.returncode == 2 and ran.stderr.startswith("usage: classroom")


@pytest.mark.parametrize("command", ["import", "grade", "page"])
def test_help(command: str) -> None:
    assert command in classroom("--help").stdout
    ran = classroom(command, "--help")
    assert ran.returncode == 0 and "Exit status: 0 " in ran.stdout


def test_without_parallel(ratest: Path, beers: Path, tmp_path: Path) -> None:
    """A class on one machine needs no GNU parallel; that on several ones tells what is missing."""
    (tmp_path / "bin").mkdir()
    for name in ("setpriv", "prlimit", "sh"):
        (tmp_path / "bin" / name).symlink_to(str(shutil.which(name)))
    # `parallel` is in none of these folders.
    words = [
        PYTHON,
        "-c",
        (
            f"import os, sys; os.defpath = {str(tmp_path / 'bin')!r}; sys.path.insert(0,"
            f" {str(TOP / 'python')!r})\nfrom classroom.main import main;"
            " sys.exit(main(sys.argv[1:]))"
        ),
    ]
    environment = {"PATH": str(tmp_path / "bin"), "RATEST": str(ratest)}
    ran = run(*words, "grade", "--only-proved", beers, env=environment)
    assert (ran.returncode, ran.stderr) == (0, "")
    (tmp_path / "hosts").write_text("nosuch\n")
    (beers / "bar.csv").write_text((beers / "bar.csv").read_text() + "Moe's,Springfield\n")
    ran = run(
        *words, "grade", "--only-proved", beers, "--hosts", tmp_path / "hosts", env=environment
    )
    assert (ran.returncode, ran.stderr) == (
        1,
        "classroom: the program parallel is not there: apt-get install parallel\n",
    )


def test_without_the_program(beers: Path) -> None:
    ran = classroom("grade", "--only-proved", beers, env={**os.environ, "RATEST": "/nosuch"})
    assert (ran.returncode, ran.stderr) == (
        1,
        "classroom: RATEST is set, but there is no program /nosuch\n",
    )


def test_without_jinja2(ratest: Path, beers: Path, tmp_path: Path) -> None:
    """What needs no page is written."""
    (tmp_path / "hidden").mkdir()
    (tmp_path / "hidden/jinja2.py").write_text("raise ImportError")
    code = (
        f"import sys; sys.path[:0] = [{str(tmp_path / 'hidden')!r}, {str(TOP / 'python')!r}]; "
        f"from classroom.main import main; sys.exit(main(['grade', {str(beers)!r}]))"
    )
    ran = run(PYTHON, "-c", code)
    assert (ran.returncode, ran.stderr) == (
        0,
        (
            "classroom: teacher.html and students.html are not written: the library jinja2 is not there: "
            "apt-get install python3-jinja2\n"
        ),
    )
    assert len(lines(beers)) == 15


def test_full_disk(ratest: Path, tmp_path: Path) -> None:
    """On a disk that is full, what was kept stays, and one line tells it."""
    disk = tmp_path / "disk"
    disk.mkdir()
    if run("mount", "-t", "tmpfs", "-o", "size=600k", "tmpfs", disk).returncode:
        pytest.skip("mounting needs rights that are not there")
    try:
        made_class.make(disk / "class", 50)
        ran = classroom("grade", "--only-proved", disk / "class")
        assert ran.returncode == 1
        assert "No space left on device" in ran.stderr and "Traceback" not in ran.stderr
        shutil.copytree(disk / "class", tmp_path / "class")
    finally:
        run("umount", disk)
    made_class.make(tmp_path / "other/class", 50)
    for folder in (tmp_path / "class", tmp_path / "other/class"):
        assert classroom("grade", "--only-proved", folder).stderr == made_class.left(folder)
    same(tmp_path / "class", tmp_path / "other/class")
