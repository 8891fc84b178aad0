"""The launcher over a command rt that proves nothing: which build answers, statuses, and what is
told."""
from __future__ import annotations

import contextlib
import os
import pty
import re
import shutil
import subprocess
import time
from pathlib import Path

import pytest

from small_repository import LINE, Repository

NOT_PROVED = re.compile(
    r"ratest: not proved: .*\./ratest --build proves and builds the program, (.*)\n"
)
FORMS = {
    "ratest": [
        "ratest SCHEMA DATADIR QUERY1 QUERY2 [--conflicts N] [--work N]",
        "ratest made N [--conflicts N] [--work N]",
    ],
    "ratest_plus": [
        "ratest_plus ra SCHEMA DATADIR RA1 RA2 [--conflicts N] [--work N]",
        "ratest_plus row ROW SCHEMA DATADIR QUERY1 QUERY2 [--conflicts N] [--work N]",
        "ratest_plus grade SCHEMA DATADIR REFERENCE LIST [--conflicts N] [--work N]",
        "ratest_plus prove SCHEMA DATADIR QUERY1 QUERY2 [--conflicts N] [--work N]",
        "ratest_plus check CERT SCHEMA DATADIR QUERY1 QUERY2 [--conflicts N] [--work N]",
    ],
}


def test_first_call_is_answered_without_proofs(repository: Repository) -> None:
    ran = repository.run("a", "b c", "")
    assert (ran.returncode, ran.stdout) == (0, "unproved: a b c \n")
    first, second, third = ran.stderr.splitlines(keepends=True)
    assert "builds it without proofs first" in first
    told = NOT_PROVED.fullmatch(second)
    assert told and told[1] == "in about half an hour on four cores"
    assert third == "to standard error\n"
    assert repository.calls() == ["try"]
    assert repository.left() == []
    assert (
        os.stat(repository.top / "out/ratest.unproved").st_mode & 0o777 == 0o755
    ), "others run it too"


def test_later_calls_build_nothing_and_say_one_line(repository: Repository) -> None:
    repository.run("a")
    for _ in range(2):
        ran = repository.run("a")
        notice, own = ran.stderr.splitlines(keepends=True)
        assert NOT_PROVED.fullmatch(notice) and own == "to standard error\n"
    assert repository.calls() == ["try"]


def test_second_program_has_a_build_of_its_own(repository: Repository) -> None:
    assert repository.run("ra", program="./ratest_plus").stdout == "unproved: ra\n"
    assert repository.run("a").stdout == "unproved: a\n"
    assert repository.calls() == ["try", "try"]


def test_build_proves_and_then_nothing_is_said(repository: Repository) -> None:
    built = repository.run("--build")
    assert (built.returncode, built.stdout) == (0, "")
    assert built.stderr.splitlines() == [
        "ratest: proves and builds the program, 3 crates, in about half an hour on four cores",
        "ratest: low was proved before (1 of 3)",
        "ratest: high is proved (2 of 3)",
        "ratest: ratest is proved (3 of 3)",
    ]
    ran = repository.run("a", "b")
    assert (ran.returncode, ran.stdout, ran.stderr) == (0, "proved: a b\n", "to standard error\n")
    assert repository.run("--build").stderr == "ratest: is proved and built\n"
    assert repository.calls() == ["ci"]
    assert repository.left() == []
    assert repository.changed() == ["crates/ratest/out/ratest"]


def test_build_with_arguments_runs_them(repository: Repository) -> None:
    ran = repository.run("--build", "status", "3")
    assert (ran.returncode, ran.stdout) == (3, "proved: status 3\n")


def test_time_is_told_from_the_last_build(repository: Repository) -> None:
    repository.run("--build")
    (repository.top / "crates/low/src/lib.rt").write_text("//! changed\n")
    told = repository.run("--build").stderr.splitlines()[0]
    assert re.fullmatch(
        r"ratest: proves and builds the program, 3 crates, which last took \d+ seconds on this "
        r"machine, where 2 of 3 crates had to be proved",
        told,
    )
    record = repository.home / ".cache/ratest/build-ratest.json"
    record.write_text('{"seconds": 1700, "anew": 27, "crates": 27}')
    told = repository.run("a", PATH="/usr/bin:/bin", FAKE_FAILS="ci").stderr
    assert "not proved" not in told
    os.remove(repository.top / "crates/ratest/out/ratest")
    assert "which last took 28 minutes on this machine" in repository.run("a").stderr
    record.write_text("{")
    assert "in about half an hour on four cores" in repository.run("a").stderr


def test_what_rt_ci_leaves_is_the_proved_program(repository: Repository) -> None:
    subprocess.run(
        ["rt", "ci"],
        cwd=repository.top,
        env=repository.environment,
        check=True,
        capture_output=True,
    )
    assert repository.run("a").stdout == "proved: a\n"
    assert repository.run("ra", program="./ratest_plus").stdout == "proved: ra\n"
    assert repository.calls() == ["ci"]


def test_newer_source_counts_as_not_built(repository: Repository) -> None:
    repository.run("--build")
    later = time.time() + 5
    os.utime(repository.top / "crates/other/src/lib.rt", (later, later))
    assert repository.run("a").stdout == "proved: a\n", "the program does not stand on this crate"
    os.utime(repository.top / "crates/low/src/lib.rt", (later, later))
    ran = repository.run("a")
    assert ran.stdout == "unproved: a\n" and NOT_PROVED.search(ran.stderr)


def test_source_that_changes_during_a_build_counts_as_newer(repository: Repository) -> None:
    started = repository.start("--build", FAKE_SECONDS="0.5")
    repository.wait_for_calls(["ci"])
    (repository.top / "crates/low/src/lib.rt").write_text("//! changed\n")
    assert started.wait(60) == 0
    started.communicate()
    assert repository.run("a").stdout == "unproved: a\n"


@pytest.mark.parametrize("status", range(9))
def test_statuses_are_the_programs(repository: Repository, status: int) -> None:
    assert repository.run("status", str(status)).returncode == status


@pytest.mark.parametrize(
    "words", [("signal", "ABRT"), ("signal", "SEGV"), ("signal", "FPE"), ("status", "99")]
)
def test_failed_check_has_a_status_of_its_own(
    repository: Repository, words: tuple[str, str]
) -> None:
    ran = repository.run(*words)
    assert ran.returncode == 71
    assert re.search(
        r"\nratest: a run-time check failed \((signal|status) \d+\): .*no answer\n$", ran.stderr
    )


@pytest.mark.parametrize(
    ("name", "number"), [("TERM", 15), ("INT", 2), ("HUP", 1), ("KILL", 9), ("XCPU", 24)]
)
def test_other_signals_end_the_call_likewise(
    repository: Repository, name: str, number: int
) -> None:
    ran = repository.run("signal", name)
    assert ran.returncode == -number
    assert "check failed" not in ran.stderr


@pytest.mark.parametrize("built", ["proved", "unproved"])
@pytest.mark.parametrize(("name", "number"), [("TERM", 15), ("INT", 2), ("HUP", 1), ("KILL", 9)])
def test_signal_to_the_launcher_ends_the_program(
    repository: Repository, built: str, name: str, number: int
) -> None:
    repository.run("--build") if built == "proved" else repository.run("a")
    started = repository.start("sleep", "50")
    assert started.stdout and started.stdout.readline() == f"{built}: sleep 50\n"
    started.send_signal(number)
    started.communicate(timeout=10)
    assert started.returncode == -number
    assert repository.processes() == []


@pytest.mark.parametrize("built", ["proved", "unproved"])
def test_open_files_of_the_caller_stay_open(repository: Repository, built: str) -> None:
    repository.run("--build") if built == "proved" else repository.run("a")
    ran = subprocess.run(
        ["bash", "-c", "./ratest read <(echo through a pipe); echo in | ./ratest read /dev/stdin"],
        cwd=repository.top,
        env=repository.environment,
        text=True,
        capture_output=True,
    )
    assert re.fullmatch(
        rf"{built}: read /dev/fd/\d+\nthrough a pipe\n{built}: read /dev/stdin\nin\n", ran.stdout
    )


@pytest.mark.parametrize("words", [("--build",), ("a",)])
@pytest.mark.parametrize("number", [2, 15, 1])
def test_interrupted_build_leaves_nothing_behind(
    repository: Repository, words: tuple[str], number: int
) -> None:
    started = repository.start(*words, FAKE_SECONDS="30")
    repository.wait_for_calls(["ci" if words == ("--build",) else "try"])
    time.sleep(0.1)
    started.send_signal(number)
    _, told = started.communicate(timeout=20)
    assert started.returncode == -number
    assert told.endswith("ratest: stopped; what is proved stays so\n")
    assert (repository.left(), repository.changed(), repository.processes()) == ([], [], [])
    assert repository.run(*words).returncode == 0


def test_ignored_hangup_stays_ignored(repository: Repository) -> None:
    started = repository.start("./ratest", "--build", program="/usr/bin/nohup", FAKE_SECONDS="0.3")
    repository.wait_for_calls(["ci"])
    started.send_signal(1)
    started.communicate(timeout=20)
    assert started.returncode == 0


def test_second_call_waits_for_the_same_build(repository: Repository) -> None:
    first = repository.start("--build", "1", FAKE_SECONDS="0.4")
    repository.wait_for_calls(["ci"])
    second = repository.run("--build", "2")
    assert second.stdout == "proved: 2\n"
    assert second.stderr.splitlines()[0] == "ratest: waiting for another build"
    assert first.communicate()[0] == "proved: 1\n"
    assert repository.calls() == ["ci"]


def test_call_during_a_proof_answers_without_it(repository: Repository) -> None:
    first = repository.start("--build", FAKE_SECONDS="3")
    repository.wait_for_calls(["ci"])
    ran = repository.run("a")
    assert ran.stdout == "unproved: a\n" and "waiting" not in ran.stderr
    assert first.poll() is None, "the answer came during the proof"
    assert first.communicate()[0] == "" and first.returncode == 0


def test_calls_at_once_build_once(repository: Repository) -> None:
    started = [repository.start(str(number), FAKE_SECONDS="0.5") for number in range(4)]
    assert [it.communicate()[0] for it in started] == [
        f"unproved: {number}\n" for number in range(4)
    ]
    assert repository.calls() == ["try"]


def test_next_call_builds_where_the_first_was_stopped(repository: Repository) -> None:
    first = repository.start("a", FAKE_SECONDS="30")
    repository.wait_for_calls(["try"])
    second = repository.start("b")
    assert second.stderr and "waiting" in second.stderr.readline()
    first.terminate()
    first.communicate()
    assert second.communicate(timeout=20)[0] == "unproved: b\n"


@pytest.mark.parametrize("program", ["ratest", "ratest_plus"])
def test_help_names_the_commands_of_both_at_once(repository: Repository, program: str) -> None:
    for words in (["--help"], ["-h"], ["grade", "--help"], ["--build", "--help"]):
        ran = repository.run(*words, program=f"./{program}")
        assert (ran.returncode, ran.stderr) == (0, "")
        for form in [*FORMS["ratest"], *FORMS["ratest_plus"]]:
            assert re.search(
                rf"^(Usage:|  or: |) +{re.escape(form)}$", ran.stdout, re.MULTILINE
            ), form
        for part in (
            "Exit status:",
            "Examples:",
            "Documents:",
            "--build",
            "71",
            f"{repository.top}: README.md",
        ):
            assert part in ran.stdout
    assert repository.calls() == []


@pytest.mark.parametrize("program", ["ratest", "ratest_plus"])
def test_no_word_is_answered_by_the_forms(repository: Repository, program: str) -> None:
    ran = repository.run(program=f"./{program}")
    assert (ran.returncode, ran.stdout) == (2, "")
    assert ran.stderr == "Usage: " + "\n  or:  ".join(FORMS[program]) + "\n"
    assert repository.calls() == []


def test_version(repository: Repository, top: Path) -> None:
    number = (top / "VERSION").read_text().strip()
    ran = repository.run("--version")
    assert (ran.returncode, ran.stderr) == (0, "")
    assert ran.stdout.splitlines() == [
        f"ratest {number}",
        "commit: not known, this folder being no git repository",
        "build: not proved here: ./ratest --build proves and builds the program",
        f"toolchain: {LINE}",
    ]
    repository.run("--build")
    for words in (
        ("init", "-q"),
        ("add", "."),
        ("-c", "user.name=a", "-c", "user.email=a@b", "commit", "-qm", "x"),
    ):
        subprocess.run(["git", *words], cwd=repository.top, env=repository.environment, check=True)
    head = subprocess.run(
        ["git", "rev-parse", "HEAD"],
        cwd=repository.top,
        env=repository.environment,
        text=True,
        stdout=subprocess.PIPE,
        check=True,
    ).stdout.strip()
    assert repository.run("--version").stdout.splitlines()[1:3] == [
        f"commit: {head}",
        "build: proved",
    ]
    (repository.top / "HANDLES").write_text("changed\n")
    assert (
        f"commit: {head}, with changes that are not committed\n"
        in repository.run("--version").stdout
    )
    assert "toolchain here: another\n" in repository.run("--version", FAKE_LINE="another").stdout
    assert "toolchain here: none" in repository.run("--version", PATH="/usr/bin:/bin").stdout


def test_words_are_passed_on_as_they_are(repository: Repository) -> None:
    for words in (["--build"], ["a"]):
        repository.run(*words)
        ran = subprocess.run(
            ["./ratest", b"\xff \n", "--work", "--help=x", "*"],
            cwd=repository.top,
            env={**repository.environment, "LC_ALL": "C"},
            capture_output=True,
        )
        assert ran.stdout.split(b": ", 1)[1] == b"\xff \n --work --help=x *\n"
        os.utime(repository.top / "crates/low/src/lib.rt", (time.time() + 9, time.time() + 9))


def test_seconds_are_shown_on_a_terminal_alone(repository: Repository) -> None:
    ours, theirs = pty.openpty()
    started = subprocess.Popen(
        ["./ratest", "a"],
        cwd=repository.top,
        stdout=subprocess.DEVNULL,
        stderr=theirs,
        env={**repository.environment, "FAKE_SECONDS": "1.5"},
    )
    os.close(theirs)
    shown = b""
    # A terminal that nobody writes to any more gives an error.
    with contextlib.suppress(OSError):
        while piece := os.read(ours, 1024):
            shown += piece
    os.close(ours)
    assert started.wait() == 0
    assert re.search(rb"(\rratest: \d+ s)+\r\033\[Kratest: not proved: ", shown)


def test_link_in_another_folder_works(repository: Repository, tmp_path: Path) -> None:
    folder = tmp_path / "another folder"
    folder.mkdir()
    (folder / "explain").symlink_to(repository.top / "ratest")
    (tmp_path / "twice").symlink_to(folder / "explain")
    for link in (folder / "explain", tmp_path / "twice"):
        ran = repository.run("a", program=link)
        assert ran.stdout == "unproved: a\n"
        assert f"{link} --build" in ran.stderr
    ran = subprocess.run(
        ["explain", "--version"],
        env={**repository.environment, "PATH": f"{folder}:/usr/bin:/bin"},
        cwd=tmp_path,
        text=True,
        capture_output=True,
    )
    assert ran.stdout.startswith("ratest ")


def test_missing_toolchain_is_told(repository: Repository) -> None:
    for words in (("a",), ("--build",)):
        ran = repository.run(*words, PATH="/usr/bin:/bin")
        assert (ran.returncode, ran.stdout) == (70, "")
        assert (
            ran.stderr.startswith("ratest: there is no command rt on the PATH")
            and LINE in ran.stderr
        )
        assert repository.left() == []


def test_other_toolchain_is_told(repository: Repository) -> None:
    ran = repository.run("a", FAKE_LINE="rattle-kit-14a logic 0")
    told = f"ratest: the toolchain here is 'rattle-kit-14a logic 0', and TOOLCHAIN names '{LINE}'"
    assert ran.stderr.startswith(told)
    assert ran.stdout == "unproved: a\n"


def test_failed_builds(repository: Repository) -> None:
    ran = repository.run("--build", "a", FAKE_FAILS="ci")
    assert (ran.returncode, ran.stdout) == (70, "")
    assert ran.stderr.endswith(
        "error: high: not proved\n0 passed, 1 failed\nratest: it could not be proved and built\n"
    )
    ran = repository.run("a", FAKE_FAILS="try")
    assert (ran.returncode, ran.stdout) == (70, "")
    assert ran.stderr.endswith(
        "does not compile\nratest: it could not be built without proofs; "
        "./ratest --build proves and builds it\n"
    )
    ran = repository.run("a", FAKE_FAILS="place")
    assert (ran.returncode, ran.stdout) == (70, "")
    assert (
        "not where this toolchain is known to put it; ./ratest --build proves and builds it"
        in ran.stderr
    )
    assert (repository.left(), repository.changed(), repository.processes()) == ([], [], [])


def test_no_place_to_keep_it(repository: Repository) -> None:
    (repository.top / "out").write_text("a file\n")
    ran = repository.run("a")
    assert ran.returncode == 70 and "it cannot be kept as" in ran.stderr.splitlines()[-1]
    assert (repository.left(), repository.calls()) == (
        [],
        [],
    ), "it is told before anything is built"


def test_documents_name_the_toolchain_and_the_statuses(top: Path) -> None:
    assert (top / "TOOLCHAIN").read_text() == f"{LINE}\n"
    assert f"`{LINE}`" in (top / "README.md").read_text()
    text = (top / "docs/REFERENCE.md").read_text()
    for status in ("| 70 |", "| 71 |"):
        assert status in text


def test_forms_are_those_of_the_sources(top: Path) -> None:
    """The forms that the programs print themselves, with ARGS spelt out."""
    said: list[str] = []
    for path in (
        "rt_top/src/top.rt",
        "rt_ra_run/src/say.rt",
        "rt_tools/src/say.rt",
        "rt_cert/src/say.rt",
    ):
        for found in re.findall(r'"usage: (.*)\\n";', (top / "crates" / path).read_text()):
            said += [line.strip() for line in found.split("\\n")]
    spelt = "SCHEMA DATADIR QUERY1 QUERY2 [--conflicts N] [--work N]"
    assert sorted(it.replace("ARGS", spelt) for it in said) == sorted(
        FORMS["ratest"] + FORMS["ratest_plus"]
    )


def test_shell_scripts_pass_shellcheck(top: Path) -> None:
    if not shutil.which("shellcheck"):
        pytest.skip("there is no program shellcheck")
    scripts = [
        "test",
        "ratest",
        "ratest_plus",
        "tools/setup",
        "tools/release/front",
        "tools/completions/ratest.bash",
    ]
    ran = subprocess.run(["shellcheck", *scripts], cwd=top, text=True, capture_output=True)
    assert (ran.returncode, ran.stdout) == (0, "")


@pytest.mark.parametrize(
    "names",
    [["launch", "launcher/*.py", "release/*.py"], ["install"], ["package"], ["count-tests"]],
)
def test_types_are_checked(top: Path, names: list[str], tmp_path: Path) -> None:
    if not shutil.which("mypy"):
        pytest.skip("there is no program mypy")
    files = [
        str(path)
        for name in names
        for path in (sorted((top / "tools").glob(name)) or [top / "tools" / name])
    ]
    ran = subprocess.run(
        ["mypy", "--strict", f"--cache-dir={tmp_path}", *files],
        cwd=top,
        text=True,
        capture_output=True,
        env={**os.environ, "MYPYPATH": str(top / "tools")},
    )
    assert ran.returncode == 0, ran.stdout
