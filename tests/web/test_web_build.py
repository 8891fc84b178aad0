"""The build of the page says in a word what it lacks, and where the toolchain's interface is
another."""
from __future__ import annotations

import os
import shutil
import subprocess
from pathlib import Path

import pytest

from release.keeping import keeping
from web import module, retarget, webassembly
from web.failed import Changed, Failed
from web.kept import digest, kept
from web.kit import kit_here, run
from web.narrow import narrowed
from web.page import exercises, page_of

MODULE = (
    b"""source_filename = "rattle"
target datalayout = "%s"
target triple = "x86_64-unknown-linux-gnu"

define noundef i64 @ratest_ask(ptr noundef %%a0, i64 noundef %%a1, ptr noundef %%a2, i64 noundef %%a3) #0 {
  ret i64 0
}
attributes #0 = { nounwind "frame-pointer"="all" "probe-stack"="inline-asm" "stack-probe-size"="3072" "target-cpu"="x86-64-v2" }
attributes #1 = { nounwind }
"""
    % retarget.FROM_LAYOUT
)


def test_a_module_for_another_target() -> None:
    assert (
        retarget.retargeted(MODULE)
        == b"""source_filename = "rattle"
target datalayout = "e-m:e-p:64:64-p10:8:8-p20:8:8-i64:64-i128:128-n32:64-S128-ni:1:10:20"
target triple = "wasm64-unknown-unknown"

define noundef i64 @ratest_ask(ptr noundef %a0, i64 noundef %a1, ptr noundef %a2, i64 noundef %a3) #0 {
  ret i64 0
}
attributes #0 = { nounwind "frame-pointer"="none" }
attributes #1 = { nounwind }
"""
    )


@pytest.mark.parametrize(
    "old, new, told",
    [
        (b"-n8:16", b"-n8:32", "the datalayout of the module is not 'e-m:e"),
        (
            b"x86_64-unknown-linux-gnu",
            b"aarch64-unknown-linux-gnu",
            "the triple of the module is not 'x86_64",
        ),
        (b"@ratest_ask(", b"@ratest_asks(", "no function ratest_ask of two slices"),
        (b"define noundef", b"define internal noundef", "no function ratest_ask of two slices"),
        (b"i64 noundef %a1", b"i32 noundef %a1", "no function ratest_ask of two slices"),
        (b"ret i64 0", b'%r = call i64 asm sideeffect "rdtsc", "=r"()', "code in assembler"),
        (b"ret i64 0", b"%r = call i64 @llvm.x86.rdtsc()", "what only x86-64 has"),
        (
            b"attributes #1 = { nounwind }",
            b'attributes #1 = { nounwind "tuned-for"="x86-64" }',
            'attribute "x86-64"',
        ),
    ],
)
def test_a_module_that_has_changed(old: bytes, new: bytes, told: str) -> None:
    with pytest.raises(Changed, match="^the toolchain's interface has changed: ") as error:
        retarget.retargeted(MODULE.replace(old, new))
    assert told in str(error.value)


EMPTY = b"\0asm\1\0\0\0"


@pytest.mark.parametrize(
    "content, told",
    [
        (b"\0ELF", "no WebAssembly module"),
        (EMPTY + b"\2\1\1", "asks for functions of its host"),
        (EMPTY + b"\7\1\0", "does not export ask, limit, memory, room, size"),
        (EMPTY + b"\7\x0a\1\6memory\2\0", "does not export ask, limit, room, size"),
    ],
)
def test_a_linked_module_that_has_changed(content: bytes, told: str) -> None:
    with pytest.raises(Changed, match=told):
        webassembly.check(content)


@pytest.mark.parametrize(
    "content, told",
    [
        (b"\4\4\1\x70\0\1", "a memory or a table without 64 bits"),
        (b"\5\3\1\0\1", "a memory or a table without 64 bits"),
        (b"\1\2\1\x5f", "a type that is no function's"),
        (b"\x0b\7\1\0\x41\0\x0b\1\0", "begins at no constant"),
        (b"\x0b\7\1\1\x42\0\x0b\1\0", "data of another form"),
        (b"\1\4\1\x60\0\0\3\2\1\0\x0a\5\1\3\0\xfd\x0b", "has the instruction 0xfd"),
        (b"\1\4\1\x60\0\0\3\2\1\0\x0a\6\1\4\0\xfc\x0c\x0b", "has the instruction 0xfc 0x0c"),
    ],
)
def test_a_module_of_another_form_is_not_narrowed(content: bytes, told: str) -> None:
    with pytest.raises(Changed, match=told):
        narrowed(EMPTY + content)


IN_C = """
#define EXPORT(name) __attribute__((export_name(#name))) name
typedef long (*function)(long);
static unsigned char room[4096];
static long twice(long it) { return 2 * it; }
static long square(long it) { return it * it; }
static function volatile functions[] = {twice, square};

long EXPORT(widths)(long value) {
    volatile unsigned char *byte = room + 1;
    volatile short *two = (volatile short *)(room + 8);
    volatile int *four = (volatile int *)(room + 16);
    volatile long *eight = (volatile long *)(room + 24);
    volatile float *single = (volatile float *)(room + 32);
    volatile double *wide = (volatile double *)(room + 40);
    *byte = value; *two = value; *four = value; *eight = value; *single = value; *wide = value;
    return *byte + *two + *four + *eight + (long)*single + (long)*wide;
}

long EXPORT(filled)(long size) {
    __builtin_memset(room, 7, size);
    __builtin_memcpy(room + 100, room, size);
    return room[100 + size - 1] * 1000 + room[100 + size];
}

long EXPORT(called)(long which) { return functions[which](9); }

long EXPORT(grown)(long pages) { return __builtin_wasm_memory_grow(0, pages); }

long EXPORT(size)(long unit) { return __builtin_wasm_memory_size(0) * unit; }
"""
IN_NODE = """
const module = new WebAssembly.Module(require("node:fs").readFileSync(0));
const it = new WebAssembly.Instance(module, {}).exports;
const size = it.size(1n);
const grown = it.grown(2n) - size;
console.log(String([it.widths(-3n), it.filled(50n), it.called(0n), it.called(1n), grown, it.size(1n) - size,
  it.grown(1n << 20n)]));
"""


def in_node(top: Path, folder: Path, text: str, script: str) -> str:
    """What a script prints of a narrowed module that is made of a text in C."""
    if not shutil.which("rt"):
        pytest.skip("there is no toolchain")
    if not shutil.which("node"):
        pytest.skip("there is no node: apt-get install nodejs")
    kit = kit_here(top)
    source, compiled, archive, linked = (folder / f"it.{end}" for end in ("c", "o", "a", "wasm"))
    source.write_text(text)
    run(
        [
            kit.clang,
            *webassembly.TARGET,
            "-O1",
            "-ffreestanding",
            "-nostdinc",
            "-c",
            source,
            "-o",
            compiled,
        ],
        60,
    )
    run([kit.archiver, "--format=gnu", "rcsD", archive, compiled], 60)
    run(
        [
            kit.linker,
            "--target",
            "wasm64-unknown-unknown",
            "--toolchain",
            kit.llvm,
            "-o",
            linked,
            archive,
        ],
        60,
    )
    made = narrowed(linked.read_bytes())
    ran = subprocess.run(["node", "-e", script], input=made, capture_output=True, check=False)
    assert not ran.returncode, ran.stderr.decode()
    return ran.stdout.decode()


def test_a_narrowed_module_does_the_same(top: Path, tmp_path: Path) -> None:
    """Accesses of each width, blocks that are filled and copied, calls by a table, and a memory
    that grows."""
    # The sum of 253 and five times -3, a byte that was copied and one that was not, and so on by
    # hand.
    assert in_node(top, tmp_path, IN_C, IN_NODE) == "238,7000,18,81,0,2,-1\n"


# Blocks of all sizes are taken, made larger and smaller, and freed, in an order of chance; each
# keeps its bytes.
HEAP_IN_C = """
#include "%s"
#define BLOCKS 300
static struct { byte *block; size_t size; byte mark; } held[BLOCKS];
static unsigned long state = 1;
static size_t drawn(size_t below) { state = state * 6364136223846793005ul + 1442695040888963407ul; return (state >> 33) %% below; }

static long wrong(long at, size_t size) {
    long count = (size_t)held[at].block %% 16 != 0;
    for (size_t place = 0; place < size; place++) count += held[at].block[place] != held[at].mark;
    return count;
}

static void mark(long at, size_t size) {
    held[at].size = size;
    held[at].mark = drawn(256);
    __builtin_memset(held[at].block, held[at].mark, size);
}

/* The number of wrong bytes in so many steps, or -1 where a block is refused. */
long ratest_ask(const byte *request, size_t steps, byte *reply, size_t reply_size) {
    (void)request; (void)reply; (void)reply_size;
    long count = 0;
    while (steps--) {
        long at = drawn(BLOCKS);
        size_t size = 1 + drawn(1ul << drawn(18));
        if (!held[at].block) {
            struct taken made = rattle_alloc(size, 8);
            if (!made.is_there) return -1;
            held[at].block = made.block;
        } else if (drawn(2)) {
            size_t kept = held[at].size < size ? held[at].size : size;
            struct taken made = rattle_realloc(held[at].block, kept, size, 8);
            if (!made.is_there) return -1;
            held[at].block = made.block;
            count += wrong(at, kept);
        } else {
            count += wrong(at, held[at].size);
            rattle_dealloc(held[at].block);
            held[at].block = 0;
            continue;
        }
        mark(at, size);
    }
    return count;
}
"""
HEAP_IN_NODE = """
const module = new WebAssembly.Module(require("node:fs").readFileSync(0));
const made = (bytes) => { const it = new WebAssembly.Instance(module, {}).exports; it.limit(bytes); return it; };
const ample = made(1n << 30n);
const found = [ample.ask(0n, 30000n, 0n, 0n), ample.size() < 1n << 26n];
// One block after another, until there are no more; then all that is left is small.
const small = made(16n << 20n);
let count = 0;
while (small.room(1n << 20n)) count++;
found.push(count > 10 && count < 16, small.size() <= 16n << 20n, small.room(1n << 40n), small.room(1n << 63n), small.room(16n) !== 0n);
console.log(String(found));
"""


def test_heap(top: Path, tmp_path: Path) -> None:
    assert (
        in_node(top, tmp_path, HEAP_IN_C % webassembly.HEAP, HEAP_IN_NODE)
        == "0,true,true,true,0,0,true\n"
    )


def test_a_compiler_that_keeps_the_module(tmp_path: Path) -> None:
    """A clang that is given an LLVM module keeps it, and any other call goes by."""
    (tmp_path / "toolchain/bin").mkdir(parents=True)
    (tmp_path / "toolchain/lib").mkdir()
    for name in ("clang", "llvm-ar"):
        (tmp_path / "toolchain/bin" / name).write_text('#!/bin/sh\necho "$0" "$@"\n')
        (tmp_path / "toolchain/bin" / name).chmod(0o755)
    made = tmp_path / "module.bc"
    copy = keeping(tmp_path / "toolchain", tmp_path / "copy", made)
    assert (
        sorted(it.name for it in copy.iterdir()) == ["bin", "lib"]
        and (copy / "bin/llvm-ar").is_symlink()
    )
    with pytest.raises(Changed, match="hands its clang no LLVM module"):
        module.check(made)
    (tmp_path / "given.bc").write_bytes(b"BC\xc0\xde and more")
    for words in (["-c", "-x", "c", "given.bc"], ["-c", "-x", "ir", "given.bc", "-O3"]):
        assert not made.exists()
        ran = subprocess.run(
            [copy / "bin/clang", *words], cwd=tmp_path, capture_output=True, text=True, check=True
        )
        assert ran.stdout == f"{tmp_path}/toolchain/bin/clang {' '.join(words)}\n"
    module.check(made)
    assert made.read_bytes() == b"BC\xc0\xde and more"
    made.write_text("; ModuleID")
    with pytest.raises(Changed, match="no LLVM module"):
        module.check(made)


def built(top: Path, path: str, out: Path) -> subprocess.CompletedProcess[str]:
    return subprocess.run(
        [top / "tools/web/build", "--out", out],
        env={**os.environ, "PATH": path},
        capture_output=True,
        text=True,
        check=False,
    )


def test_no_toolchain(top: Path, tmp_path: Path) -> None:
    ran = built(top, "/usr/bin:/bin", tmp_path / "page.html")
    assert (ran.returncode, ran.stdout) == (1, "") and ran.stderr.startswith(
        "build: there is no command rt on the PATH"
    )
    (tmp_path / "kit/bin").mkdir(parents=True)
    (tmp_path / "kit/bin/rt").write_text("#!/bin/sh\n")
    (tmp_path / "kit/bin/rt").chmod(0o755)
    ran = built(top, f"{tmp_path}/kit/bin:/usr/bin:/bin", tmp_path / "page.html")
    assert (ran.returncode, ran.stdout) == (1, "")
    assert (
        ran.stderr == "build: the toolchain's interface has changed: there is no program"
        f" {tmp_path}/kit/toolchain/bin/clang\n"
    )
    assert not (tmp_path / "page.html").exists()


def test_exercises(top: Path) -> None:
    names = [
        queries.name for exercise in exercises(top / "examples") for queries in exercise.queries
    ]
    assert names[:2] == ["beers, task 1, answer a", "beers, task 1, answer b"] and {
        "numbers",
        "university",
    } <= set(names)
    # Fifteen answers to the beers, seventeen to the shop, and two pairs of queries.
    assert len(names) == len(set(names)) == 34


def test_a_page_is_the_same_each_time(top: Path) -> None:
    page = page_of(top, EMPTY)
    assert (
        page == page_of(top, EMPTY)
        and page.count(b"<script") == 4
        and b"$" not in page.split(b"<main>")[0]
    )


def test_a_script_that_would_end(
    top: Path, tmp_path: Path, monkeypatch: pytest.MonkeyPatch
) -> None:
    (tmp_path / "a.js").write_text("const text = '</SCRIPT>';\n")
    monkeypatch.setattr("web.page.PARTS", tmp_path)
    from web.page import joined

    with pytest.raises(Failed, match="what ends a script"):
        joined(("a.js",))


def test_what_is_kept(tmp_path: Path) -> None:
    """A file is made once, and takes the place of older ones."""
    made = []

    def make(folder: Path) -> Path:
        made.append(folder)
        (folder / "it").write_text("new")
        return folder / "it"

    (tmp_path / "old.wasm").write_text("old")
    for _ in range(2):
        assert kept(tmp_path / "new.wasm", make).read_text() == "new"
    assert len(made) == 1 and [it.name for it in tmp_path.iterdir()] == ["new.wasm"]
    source = tmp_path / "source"
    source.write_text("a")
    first = digest([source])
    assert first == digest([source]) != digest([source, source])
    source.write_text("b")
    assert first != digest([source])
