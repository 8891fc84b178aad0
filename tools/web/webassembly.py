"""The WebAssembly module: compiled from the library's LLVM module and the heap, linked, checked,
and given a memory of 32 bits."""
from __future__ import annotations

from pathlib import Path

from web import retarget
from web.binary import IMPORTS, exported, sections
from web.failed import Changed
from web.kept import digest, kept
from web.kit import Kit, run
from web.module import module_of
from web.narrow import narrowed

HEAP = Path(__file__).with_name("heap.c")
SECONDS = 1800.0
STACK = 8 << 20
EXPORTS = {"memory", "ask", "room", "limit", "size"}
PLAIN = (
    "--no-default-config",
    "-no-canonical-prefixes",
    "-fintegrated-cc1",
    "-Werror",
    "-Wno-override-module",
)
TARGET = (
    f"--target={retarget.TARGET.decode()}",
    *PLAIN,
    "-mcpu=lime1",
    "-mbulk-memory",
    "-ffunction-sections",
    "-fdata-sections",
)
# Integers of more than 64 bits are divided, and floats made of them, in place: there is no library
# of such calls.
IN_PLACE = ("-mllvm", "-expand-div-rem-bits=64", "-mllvm", "-expand-fp-convert-bits=64")


def binary_here(top: Path, kit: Kit) -> Path:
    """The WebAssembly module of the library as its sources are now."""
    module = module_of(top)

    def make(folder: Path) -> Path:
        made = folder / "ratest.wasm"
        made.write_bytes(binary_of(kit, module, folder))
        return made

    name = digest([module, kit.folder / "KIT-ID", *sorted(HEAP.parent.glob("*.py")), HEAP])
    return kept(top / "out/web" / f"{name}.wasm", make)


def binary_of(kit: Kit, module: Path, folder: Path) -> bytes:
    """The WebAssembly module of an LLVM module; the folder is for what is needed meanwhile."""
    linked = folder / "linked.wasm"
    run(
        [
            kit.linker,
            "--target",
            retarget.TARGET.decode(),
            "--toolchain",
            kit.llvm,
            "--stack",
            str(STACK),
            "-o",
            linked,
            archive_of(kit, module, folder),
        ],
        SECONDS,
    )
    content = linked.read_bytes()
    check(content)
    return narrowed(content)


def archive_of(kit: Kit, module: Path, folder: Path) -> Path:
    """A static library of the module and the heap, for the other target."""
    text, objects, archive = (
        folder / "module.ll",
        (folder / "module.o", folder / "heap.o"),
        folder / "library.a",
    )
    run(
        [
            kit.clang,
            "--target=x86_64-unknown-linux-gnu",
            *PLAIN,
            "-x",
            "ir",
            module,
            "-S",
            "-emit-llvm",
            "-Xclang",
            "-disable-llvm-passes",
            "-o",
            text,
        ],
        SECONDS,
    )
    text.write_bytes(retarget.retargeted(text.read_bytes()))
    run([kit.clang, *TARGET, *IN_PLACE, "-O3", "-c", "-x", "ir", text, "-o", objects[0]], SECONDS)
    text.unlink()
    run(
        [
            kit.clang,
            *TARGET,
            "-std=c17",
            "-Wall",
            "-Wextra",
            "-O2",
            "-ffreestanding",
            "-fno-builtin",
            "-nostdinc",
            "-c",
            HEAP,
            "-o",
            objects[1],
        ],
        SECONDS,
    )
    run([kit.archiver, "--format=gnu", "rcsD", archive, *objects], SECONDS)
    return archive


def check(content: bytes) -> None:
    """The module asks nothing of its host, and gives it all that a page needs."""
    if any(kind == IMPORTS and part[0] for kind, part in sections(content)):
        raise Changed("the linked module asks for functions of its host")
    lacks = EXPORTS - exported(content)
    if lacks:
        raise Changed(f"the linked module does not export {', '.join(sorted(lacks))}")
