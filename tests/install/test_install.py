"""tools/install: what is installed works with no toolchain, and --uninstall leaves nothing of
it."""
from __future__ import annotations

import gzip
import os
import re
import shlex
import shutil
import subprocess
from collections.abc import Iterator
from pathlib import Path

import pytest

NO_TOOLCHAIN = {"PATH": "/usr/bin:/bin", "LC_ALL": "C.UTF-8"}
LINE = "rattle-kit-13f logic dac8208d650f15bf"
SECONDS = 120


def install(copy: Path, *words: str | Path) -> subprocess.CompletedProcess[str]:
    return subprocess.run(
        ["tools/install", *words], cwd=copy, text=True, capture_output=True, timeout=SECONDS
    )


def run(*words: str | Path) -> subprocess.CompletedProcess[str]:
    return subprocess.run(
        words, env=NO_TOOLCHAIN, text=True, capture_output=True, timeout=SECONDS, cwd="/"
    )


@pytest.fixture(scope="module")
def prefix(copy: Path, tmp_path_factory: pytest.TempPathFactory) -> Iterator[Path]:
    """A prefix that had a file of somebody else's, with all installed below it."""
    place = tmp_path_factory.mktemp("install") / "a prefix & more"
    (place / "share/man").mkdir(parents=True)
    (place / "share/man/other").write_text("other\n")
    ran = install(copy, "--prefix", place)
    assert (ran.returncode, ran.stderr) == (0, "")
    yield place
    ran = install(copy, "--prefix", place, "--uninstall")
    assert (ran.returncode, ran.stderr) == (0, "")
    assert sorted(str(it.relative_to(place)) for it in place.rglob("*")) == [
        "share",
        "share/man",
        "share/man/other",
    ]


def test_the_beers_from_the_installed_examples(prefix: Path, beers: str) -> None:
    at = prefix / "share/doc/ratest/examples/beers"
    ran = run(
        prefix / "bin/ratest", at / "schema.sql", at, at / "3/reference.sql", at / "3/answers/b.sql"
    )
    assert (ran.returncode, ran.stdout, ran.stderr) == (1, beers, "")
    ran = run(
        prefix / "bin/ratest", at / "schema.sql", at, at / "3/reference.sql", at / "3/reference.sql"
    )
    assert (ran.returncode, ran.stdout, ran.stderr) == (0, "agree\n", "")
    ran = run(prefix / "bin/ratest_plus", "prove", "made", "3")
    assert ran.returncode == 0 and ran.stdout.startswith("ratest certificate 1\n")


def test_statuses_are_the_programs(prefix: Path) -> None:
    assert run(prefix / "bin/ratest", "a").returncode == 2
    assert run(prefix / "bin/ratest", "/nowhere", "/", "/nowhere", "/nowhere").returncode == 6


@pytest.mark.parametrize("name", ["ratest", "ratest_plus"])
def test_help_and_version(prefix: Path, copy: Path, name: str) -> None:
    for words in (["--help"], ["-h"], ["made", "--help"]):
        ran = run(prefix / "bin" / name, *words)
        assert (ran.returncode, ran.stderr) == (0, "")
        assert ran.stdout.startswith(f"Usage: {name} ") and "--build" not in ran.stdout
        assert f"{prefix}/share/doc/ratest: README.md" in ran.stdout
    head = subprocess.run(
        ["git", "rev-parse", "HEAD"], cwd=copy, text=True, capture_output=True
    ).stdout.strip()
    ran = run(prefix / "bin" / name, "--version")
    number = (copy / "VERSION").read_text().strip()
    assert ran.stdout == f"{name} {number}\ncommit: {head}\nbuild: proved\ntoolchain: {LINE}\n"
    ran = run(prefix / "bin" / name)
    assert (ran.returncode, ran.stdout) == (2, "") and ran.stderr.startswith(f"Usage: {name} ")


def test_a_link_to_the_installed_program(prefix: Path, tmp_path: Path) -> None:
    (tmp_path / "explain").symlink_to(prefix / "bin/ratest")
    assert run(tmp_path / "explain", "--version").stdout.startswith("ratest ")
    assert run(tmp_path / "explain", "made", "3").returncode == 1


def test_classroom(prefix: Path, top: Path, tmp_path: Path) -> None:
    """An exercise is graded by the installed program and package alone."""
    ran = run(prefix / "bin/classroom", "--help")
    assert (ran.returncode, ran.stderr) == (0, "") and ran.stdout.startswith("usage: classroom ")
    exercise = tmp_path / "beers"
    shutil.copytree(top / "examples/beers", exercise, ignore=shutil.ignore_patterns("results"))
    ran = run(prefix / "bin/classroom", "grade", exercise)
    assert (ran.returncode, ran.stderr) == (0, "") and "15 answers: 15 differ\n" in ran.stdout
    assert (exercise / "results/teacher.html").read_text() == (
        top / "examples/beers/teacher.html"
    ).read_text()
    page = gzip.decompress((prefix / "share/man/man1/classroom.1.gz").read_bytes())
    assert b"classroom" in page and b"grade" in page


def test_the_python_package(prefix: Path) -> None:
    code = (
        "import ratest; print(ratest.explain('CREATE TABLE t (a INT)', {'t': [[1], [2]]}, 'SELECT a"
        " FROM t', 'SELECT a FROM t WHERE a > 1'), ratest.__file__)"
    )
    folder = prefix / "lib/python3.11/dist-packages"
    ran = subprocess.run(
        ["/usr/bin/python3", "-c", code],
        env={**NO_TOOLCHAIN, "PYTHONPATH": str(folder)},
        text=True,
        capture_output=True,
        timeout=SECONDS,
        cwd="/",
    )
    assert (ran.returncode, ran.stderr) == (0, "")
    assert (
        ran.stdout == "witness: 1\nt 1: 1\nonly query 1: 1\n  1\nonly query 2: 0\nboth: 0\n "
        f"{folder}/ratest/__init__.py\n"
    )


def test_the_library_for_c(prefix: Path, top: Path, tmp_path: Path) -> None:
    """By pkg-config, and by the static library."""
    if not shutil.which("pkg-config"):
        pytest.skip("there is no program pkg-config")
    described = subprocess.run(
        ["pkg-config", "--cflags", "--libs", "ratest"],
        text=True,
        capture_output=True,
        check=True,
        env={**os.environ, "PKG_CONFIG_PATH": str(prefix / "share/pkgconfig")},
    ).stdout
    for name, words in (
        ("shared", shlex.split(described)),
        ("static", [f"-I{prefix}/include", str(prefix / "lib/ratest/libratest.a")]),
    ):
        subprocess.run(
            ["cc", "-o", tmp_path / name, top / "examples/c/explain.c", *words],
            check=True,
            timeout=SECONDS,
        )
        ran = run(tmp_path / name)
        assert (ran.returncode, ran.stderr) == (1, "") and ran.stdout.startswith(
            "witness: 1\nbeer 2: 'Corona', NULL\n"
        )


@pytest.mark.parametrize("name", ["ratest", "ratest_plus"])
def test_manual_page_has_what_help_has(prefix: Path, name: str) -> None:
    page = prefix / f"share/man/man1/{name}.1.gz"
    assert gzip.decompress(page.read_bytes()).startswith(b'.\\" DO NOT MODIFY THIS FILE!')
    if not shutil.which("man"):
        pytest.skip("there is no program man")
    ran = subprocess.run(
        ["man", "--warnings", "-l", page],
        env={**NO_TOOLCHAIN, "MANWIDTH": "200"},
        text=True,
        capture_output=True,
        timeout=SECONDS,
    )
    assert (ran.returncode, ran.stderr) == (0, "")
    shown = " ".join(ran.stdout.split())
    usage = run(prefix / "bin" / name).stderr.replace("Usage: ", "").replace("  or:  ", "")
    for form in usage.splitlines():
        assert form in shown
    for part in ("EXIT STATUS", "EXAMPLES", "SEE ALSO", "--conflicts N"):
        assert part in shown


def completed(prefix: Path, *words: str) -> list[str]:
    """What bash proposes for the last word."""
    script = (
        f"source '{prefix}/share/bash-completion/completions/{words[0]}'; compopt() {{ :; }}\n"
        'COMP_WORDS=("$@"); COMP_CWORD=$(($# - 1)); _ratest; printf "%s\\n" "${COMPREPLY[@]}"'
    )
    ran = subprocess.run(
        ["bash", "-c", script, "bash", *words], cwd=prefix, text=True, capture_output=True
    )
    assert ran.stderr == ""
    return ran.stdout.split()


def test_completion_for_bash(prefix: Path) -> None:
    assert completed(prefix, "ratest_plus", "") == ["ra", "row", "grade", "prove", "check"]
    assert completed(prefix, "ratest_plus", "gr") == ["grade"]
    assert completed(prefix, "ratest", "--c") == ["--conflicts"]
    assert completed(prefix, "ratest", "--work", "") == []
    assert completed(prefix, "ratest", "sh") == ["share"]
    assert completed(prefix, "ratest", "--work", "7", "schema", "") == sorted(
        os.listdir(prefix)
    ) or set(completed(prefix, "ratest", "--work", "7", "schema", "")) == set(os.listdir(prefix))
    assert completed(prefix, "ratest_plus", "row", "") == []
    assert completed(prefix, "ratest_plus", "row", "1", "sh") == ["share"]
    assert completed(prefix, "ratest", "1", "2", "3", "4", "") == []


def test_completion_for_zsh_is_read(prefix: Path) -> None:
    if not shutil.which("zsh"):
        pytest.skip("there is no program zsh")
    ran = run("zsh", "-n", prefix / "share/zsh/site-functions/_ratest")
    assert (ran.returncode, ran.stderr) == (0, "")


def test_links_of_the_installed_documents_lead_somewhere(prefix: Path) -> None:
    about = prefix / "share/doc/ratest"
    for document in about.rglob("*.md"):
        for link in re.findall(r"\]\(([^)#:]+)\)", document.read_text()):
            assert (document.parent / link).exists(), f"{document}: {link}"


def test_a_second_install_takes_the_place_of_the_first(copy: Path, tmp_path: Path) -> None:
    assert install(copy, "--prefix", tmp_path).returncode == 0
    listed = tmp_path / "share/ratest/installed"
    (tmp_path / "share/ratest/older").write_text("of an older version\n")
    listed.write_text(listed.read_text() + "share/ratest/older\n")
    assert install(copy, "--prefix", tmp_path).returncode == 0
    assert not (tmp_path / "share/ratest/older").exists()
    assert install(copy, "--prefix", tmp_path, "--uninstall").returncode == 0
    assert list(tmp_path.iterdir()) == []


def test_what_stops_it_is_one_line(copy: Path, tmp_path: Path) -> None:
    ran = install(copy, "--prefix", tmp_path, "--uninstall")
    assert (ran.returncode, ran.stderr) == (1, f"install: nothing is installed in {tmp_path}\n")
    (tmp_path / "file").write_text("")
    ran = install(copy, "--prefix", tmp_path / "file")
    assert (ran.returncode, ran.stderr.count("\n")) == (1, 1) and str(
        tmp_path / "file"
    ) in ran.stderr
    program = copy / "crates/ratest/out/ratest"
    os.rename(program, f"{program}.away")
    try:
        ran = install(copy, "--prefix", tmp_path / "new")
    finally:
        os.rename(f"{program}.away", program)
    assert (ran.returncode, ran.stderr) == (
        1,
        "install: ratest is not proved and built here: ./ratest --build\n",
    )
    assert not (tmp_path / "new").exists()
