"""Each command of the documents is run, and what it prints is compared with what they show."""
from __future__ import annotations

import os
import re
import shlex
import shutil
from pathlib import Path

import pytest
from products import TOP, run

# A block of commands, and in it each that is typed with what it prints.
BLOCK = re.compile(r"^```\n(\$ .*?)^```", re.DOTALL | re.MULTILINE)
COMMAND = re.compile(r"^\$ ([^\n]*)\n((?:(?!\$ )[^\n]*\n)*)", re.MULTILINE)
PAGES = ("docs/TEACHING.md", "docs/REFERENCE.md")

# Words of the commands that the second program answers.
NEEDS_PLUS = (
    "ratest_plus",
    "beers.cert",
    "classroom mutants",
    "classroom mistakes",
    "--same mistake",
    "classroom pick",
    "cat few/",
)


def commands(page: str) -> list[tuple[str, str]]:
    text = (TOP / page).read_text(encoding="utf-8")
    return [
        (typed, printed)
        for block in BLOCK.findall(text)
        for typed, printed in COMMAND.findall(block)
    ]


@pytest.fixture
def clone(ratest: Path, tmp_path: Path) -> Path:
    """The folder of a clone, with what its documents use."""
    shutil.copytree(
        TOP / "examples", tmp_path / "examples", ignore=shutil.ignore_patterns("results")
    )
    (tmp_path / "classroom").symlink_to(TOP / "classroom")
    # No links: the programs' own scripts look for their folder beside themselves.
    for name, program in (("ratest", ratest), ("ratest_plus", plus())):
        (tmp_path / name).write_text(
            f'#!/bin/sh\nexec {shlex.quote(str(program.absolute()))} "$@"\n'
        )
        (tmp_path / name).chmod(0o755)
    return tmp_path


def plus() -> Path:
    return Path(
        os.environ.get("RATEST_PLUS") or TOP / "crates/ratest_plus/out/ratest_plus"
    ).absolute()


def environment(clone: Path) -> dict[str, str]:
    return {
        **os.environ,
        "RATEST_PLUS": str(plus()),
        "PATH": f"{clone}:{os.environ['PATH']}",
    }


@pytest.mark.parametrize("page", PAGES)
def test_commands_print_what_the_page_shows(page: str, clone: Path) -> None:
    if not shutil.which("sqlite3"):
        pytest.skip("no program sqlite3: apt-get install sqlite3")
    (clone / "trial").mkdir()
    missing = []
    found = commands(page)
    assert found
    for typed, printed in found:
        if not os.access(plus(), os.X_OK) and any(word in typed for word in NEEDS_PLUS):
            missing.append(typed)
            continue
        ran = run("bash", "-c", f"exec 2>&1\n{typed}", cwd=clone / "trial", env=environment(clone))
        assert ran.stdout == printed, typed
    if missing:
        pytest.skip(f"there is no program {plus()}: {len(missing)} of the commands were not run")


def test_the_first_class_of_the_readme(clone: Path) -> None:
    if not shutil.which("sqlite3"):
        pytest.skip("no program sqlite3: apt-get install sqlite3")
    text = (TOP / "README.md").read_text(encoding="utf-8")
    section = text.split("## Grade your first class")[1].split("\n## ")[0]
    blocks = re.findall(r"^ +```\n(.*?)^ +```", section, re.DOTALL | re.MULTILINE)
    assert len(blocks) == 3 and blocks[0].strip().startswith("mkdir trial && cd trial")
    script = "set -e\n" + "".join(blocks)
    ran = run(
        "bash", "-c", script, cwd=clone, env={**environment(clone), "PATH": os.environ["PATH"]}
    )
    assert ran.returncode == 0, ran.stderr
    told = re.search(r"`grade` prints `([^`]*)`", section)
    assert told and told[1] in ran.stdout
    results = clone / "trial/class/results"
    for name in ("teacher.html", "grades.csv", "class.csv", "feedback/moodle.csv"):
        assert (results / name).is_file(), name


def test_git_ignores_the_folder_of_the_first_class() -> None:
    assert "/trial/" in (TOP / ".gitignore").read_text(encoding="utf-8").splitlines()


@pytest.mark.parametrize("page", ["TEACHING", "SERVER", "SQL", "REFERENCE"])
def test_the_contents_name_every_part(page: str) -> None:
    text = (TOP / f"docs/{page}.md").read_text(encoding="utf-8")
    parts = re.findall(
        r"^## (.*)$", re.sub(r"^```.*?^```", "", text, flags=re.DOTALL | re.MULTILINE), re.MULTILINE
    )
    contents = re.findall(r"^- \[(.*?)\]\(#", text.split("\n## ")[0], re.MULTILINE)
    assert len(parts) >= 5 and contents == parts


def test_options_are_those_of_the_commands() -> None:
    ran = run(TOP / "tools/reference", "--check")
    assert ran.returncode == 0, "tools/reference writes them anew"


def test_readme(ratest: Path) -> None:
    """The answer that the README explains."""
    text = (TOP / "README.md").read_text(encoding="utf-8")
    shown = re.search(
        r"^\$ \./ratest (examples/beers[^\n]*)\n(.*?)^```", text, re.DOTALL | re.MULTILINE
    )
    assert shown
    ran = run(ratest, *shown[1].split(), cwd=TOP)
    assert ran.stdout == shown[2]
