"""The library in C: the example, its header, and what it asks of a program."""
from __future__ import annotations

import os
import re
import subprocess
from pathlib import Path

import pytest

TOP = Path(__file__).resolve().parents[2]
EXAMPLE = TOP / "examples/c/explain.c"
# By hand: NULL <> 4 is unknown, so query 2 leaves Corona out, and no fewer rows than one can
# differ.
EXPLAINED = (
    "witness: 1\nbeer 2: 'Corona', NULL\nonly query 1: 1\n  'Corona'\nonly query 2: 0\nboth: 0\n"
)
SECONDS = 120
# Memory, and nothing of files, processes or threads.
WANTED = {"free", "malloc", "realloc", "memcpy", "memmove", "memset", "memcmp", "bcmp"}


def compile_c(source: Path, to: Path, built: Path, library: str) -> Path:
    rest: list[str | Path] = (
        [f"-L{built}", f"-Wl,-rpath,{built}", "-lratest"]
        if library == "shared"
        else [built / "libratest.a"]
    )
    subprocess.run(
        [
            "cc",
            "-std=c11",
            "-Wall",
            "-Wextra",
            "-Werror",
            "-pedantic",
            f"-I{built}",
            "-o",
            to,
            source,
            *rest,
        ],
        check=True,
        timeout=SECONDS,
    )
    return to


@pytest.mark.parametrize("library", ["shared", "static"])
def test_the_example(built: Path, tmp_path: Path, library: str) -> None:
    program = compile_c(EXAMPLE, tmp_path / "explain", built, library)
    ran = subprocess.run([program], capture_output=True, text=True, timeout=SECONDS)
    assert (ran.returncode, ran.stdout, ran.stderr) == (1, EXPLAINED, "")
    assert len(EXAMPLE.read_text().splitlines()) < 40


def test_the_header_is_read_by_cpp(built: Path, tmp_path: Path) -> None:
    source = tmp_path / "one.cc"
    source.write_text(
        "#include <ratest.h>\n#include <ratest.h>\nint main() { uint8_t one = 0; return"
        " ratest_ask(&one, 1, &one, 1) == RATEST_MALFORMED ? 0 : 1; }\n"
    )
    subprocess.run(
        [
            "cc",
            "-x",
            "c++",
            "-Wall",
            "-Werror",
            f"-I{built}",
            "-o",
            tmp_path / "one",
            source,
            "-x",
            "none",
            built / "libratest.a",
        ],
        check=True,
        timeout=SECONDS,
    )
    subprocess.run([tmp_path / "one"], check=True, timeout=SECONDS)


def test_what_the_shared_object_exports_and_asks_for(shared: Path) -> None:
    lines = subprocess.run(
        ["nm", "-D", shared], capture_output=True, text=True, check=True
    ).stdout.splitlines()
    names = [re.sub("@.*", "", line.split()[-1]) for line in lines if " w " not in line]
    kinds = [line.split()[-2] for line in lines if " w " not in line]
    assert [name for name, kind in zip(names, kinds) if kind != "U"] == ["ratest_ask"]
    assert {name for name, kind in zip(names, kinds) if kind == "U"} <= WANTED


def test_no_memory_is_lost_and_none_is_touched_that_is_not_given(
    built: Path, tmp_path: Path
) -> None:
    """Under the address sanitizer of the C compiler, with a room that ends where the reply does."""
    source = tmp_path / "again.c"
    source.write_text(
        EXAMPLE.read_text()
        .replace("int main(void) {", "static int once(void) {")
        .replace("sizeof reply", "room")
        .replace("static size_t used;", "static size_t used, room = sizeof reply;")
        + """
#include <stdlib.h>
int main(void) {
    once();
    int64_t length = ratest_ask(request, used, reply, 0);
    if (length >= -4) return 71;
    uint8_t *tight = malloc((size_t)-length), *asked = malloc(used);
    memcpy(asked, request, used);
    for (int i = 0; i < 50; i++) {
        if (ratest_ask(asked, used, tight, (size_t)-length) != -length) return 72;
        if (ratest_ask(asked, used, tight, (size_t)-length - 1) != length) return 73;
    }
    for (size_t cut = 0; cut < used; cut++) {
        uint8_t *part = malloc(cut + 1);
        memcpy(part, request, cut);
        if (ratest_ask(part, cut, tight, (size_t)-length) != RATEST_MALFORMED) return 74;
        free(part);
    }
    free(tight), free(asked);
    return 0;
}
"""
    )
    program = tmp_path / "again"
    words: list[str | Path] = [
        "cc",
        "-std=c11",
        "-g",
        "-fsanitize=address",
        f"-I{built}",
        "-o",
        program,
        source,
        built / "libratest.a",
    ]
    if subprocess.run(words, capture_output=True, timeout=SECONDS).returncode:
        pytest.skip("the C compiler has no address sanitizer")
    ran = subprocess.run(
        [program],
        capture_output=True,
        text=True,
        timeout=SECONDS,
        env={**os.environ, "ASAN_OPTIONS": "detect_leaks=1"},
    )
    assert (ran.returncode, ran.stderr) == (0, "")
