"""Each allocation of a program refused in turn: the first, then the second and so on, until a run
meets none that is refused. Each run ends with the answer that ample memory gives, or with status 7
and at most the beginning of that answer written.

The allocations are those that a program asks of the C library; a small library in C is put before
it. `MEMORY_STEP` is another step than the gate's 7, with which each 7th allocation is refused; 1
refuses all. """
from __future__ import annotations

import os
import shutil
import subprocess
from concurrent.futures import ThreadPoolExecutor
from dataclasses import dataclass
from pathlib import Path

import pytest

STEP = int(os.environ.get("MEMORY_STEP", "7"))
WORKERS = os.cpu_count() or 1

REFUSE = r"""
#define _GNU_SOURCE
#include <dlfcn.h>
#include <fcntl.h>
#include <stdlib.h>
#include <unistd.h>

static long left = -1;

__attribute__((constructor)) static void begin(void) {
    const char *text = getenv("REFUSED");
    if (text) left = atol(text);
}

/* Whether this call is the one to refuse; the file MET then stands there. */
static int is_refused(void) {
    if (left < 0 || left-- > 0) return 0;
    const char *met = getenv("MET");
    if (met) close(open(met, O_CREAT | O_WRONLY, 0600));
    return 1;
}

void *malloc(size_t size) {
    static void *(*next)(size_t);
    if (!next) *(void **)&next = dlsym(RTLD_NEXT, "malloc");
    return is_refused() ? NULL : next(size);
}

void *realloc(void *block, size_t size) {
    static void *(*next)(void *, size_t);
    if (!next) *(void **)&next = dlsym(RTLD_NEXT, "realloc");
    return is_refused() ? NULL : next(block, size);
}
"""

SCHEMA = """CREATE TABLE student (name TEXT PRIMARY KEY, major TEXT);
CREATE TABLE reg (name TEXT REFERENCES student, course INTEGER, dept TEXT, grade INTEGER, PRIMARY KEY (name, course));
"""
FIRST = """SELECT s.name FROM student s, reg r WHERE s.name = r.name AND r.dept = 'CS' EXCEPT
SELECT s.name FROM student s, reg r1, reg r2
WHERE s.name = r1.name AND s.name = r2.name AND r1.course <> r2.course AND r1.dept = 'CS' AND r2.dept = 'CS'
"""
SECOND = "SELECT s.name FROM student s, reg r WHERE s.name = r.name AND r.dept = 'CS'\n"


@dataclass(frozen=True)
class Ran:
    status: int
    out: bytes
    err: bytes
    # Whether an allocation was refused.
    is_met: bool = False


@pytest.fixture(scope="module")
def refuse(tmp_path_factory: pytest.TempPathFactory) -> Path:
    """The library that refuses."""
    if not shutil.which("cc"):
        pytest.skip("there is no C compiler: apt-get install gcc")
    folder = tmp_path_factory.mktemp("refuse")
    (folder / "refuse.c").write_text(REFUSE)
    subprocess.run(
        ["cc", "-shared", "-fPIC", "-O1", "-o", folder / "refuse.so", folder / "refuse.c", "-ldl"],
        check=True,
    )
    return folder / "refuse.so"


@pytest.fixture(scope="module")
def exercise(tmp_path_factory: pytest.TempPathFactory) -> Path:
    folder = tmp_path_factory.mktemp("exercise")
    texts = {
        "schema": SCHEMA,
        "student.csv": "name,major\nMary,CS\nJohn,ECON\n",
        "1": FIRST,
        "2": SECOND,
        "reg.csv": "name,course,dept,grade\nMary,216,CS,100\nMary,230,CS,75\nJohn,316,CS,90\n",
        "1.ra": "project(select(reg, dept = 'CS'), (name))",
        "2.ra": "project(anti(student, select(reg, grade < 80)), (name))",
        "list": f"{folder}/1\n{folder}/2\n",
    }
    for name, text in texts.items():
        (folder / name).write_text(text)
    return folder


def run(words: list[str], number: int | None, library: Path, folder: Path) -> Ran:
    met = folder / f"met-{number}"
    refused = (
        {}
        if number is None
        else {"REFUSED": str(number), "MET": str(met), "LD_PRELOAD": str(library)}
    )
    done = subprocess.run(
        words,
        stdin=subprocess.DEVNULL,
        capture_output=True,
        env={**os.environ, **refused},
        check=False,
    )
    return Ran(done.returncode, done.stdout, done.stderr, met.exists())


def check(words: list[str], status: int, library: Path, folder: Path) -> None:
    whole = run(words, None, library, folder)
    assert whole.status == status
    start, refused = 0, 0
    with ThreadPoolExecutor(WORKERS) as pool:
        while True:
            numbers = range(start, start + 64 * STEP, STEP)
            ran = list(pool.map(lambda number: run(words, number, library, folder), numbers))
            for number, one in zip(numbers, ran):
                is_short = (
                    one.status == 7
                    and whole.out.startswith(one.out)
                    and whole.err.startswith(one.err)
                )
                is_whole = (one.status, one.out, one.err) == (status, whole.out, whole.err)
                assert is_short or is_whole, f"allocation {number} is refused: {one}"
                refused += is_short
            if not all(one.is_met for one in ran):
                break
            start = numbers[-1] + STEP
    assert refused > 0


def plain(exercise: Path, first: str = "1", second: str = "2") -> list[str]:
    return [f"{exercise}/schema", f"{exercise}", f"{exercise}/{first}", f"{exercise}/{second}"]


def test_a_witness(ratest: Path, refuse: Path, exercise: Path, tmp_path: Path) -> None:
    check([str(ratest), *plain(exercise)], 1, refuse, tmp_path)


def test_a_generated_input(ratest: Path, refuse: Path, tmp_path: Path) -> None:
    check([str(ratest), "made", "3"], 1, refuse, tmp_path)


def test_algebra_texts(ratest_plus: Path, refuse: Path, exercise: Path, tmp_path: Path) -> None:
    check([str(ratest_plus), "ra", *plain(exercise, "1.ra", "2.ra")], 1, refuse, tmp_path)


def test_a_named_row(ratest_plus: Path, refuse: Path, exercise: Path, tmp_path: Path) -> None:
    check([str(ratest_plus), "row", "'Mary'", *plain(exercise, "2", "1")], 1, refuse, tmp_path)


def test_grades(ratest_plus: Path, refuse: Path, exercise: Path, tmp_path: Path) -> None:
    check([str(ratest_plus), "grade", *plain(exercise, "1", "list")], 0, refuse, tmp_path)


def test_certificates(ratest_plus: Path, refuse: Path, exercise: Path, tmp_path: Path) -> None:
    words = [str(ratest_plus), "prove", *plain(exercise)]
    check(words, 0, refuse, tmp_path)
    (tmp_path / "certificate").write_bytes(run(words, None, refuse, tmp_path).out)
    check(
        [str(ratest_plus), "check", f"{tmp_path}/certificate", *plain(exercise)],
        0,
        refuse,
        tmp_path,
    )
