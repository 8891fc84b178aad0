"""The files of a platform's archive, a zip file or a folder, which strangers have filled.

No link is followed, no name leads out of the archive, and neither their number nor their bytes pass
a bound, whatever the archive says of itself. What is left out is told by its name. A zip file that
was handed in is opened too, one level deep and within bounds of its own. """
from __future__ import annotations

import io
import os
import stat
import zipfile
import zlib
from collections.abc import Iterator
from contextlib import closing
from dataclasses import dataclass, replace
from pathlib import Path

from classroom.base.errors import Fault, shown
from classroom.people.identity import has_bad_sign

MOST_MEMBERS = 50_000
MOST_BYTES = 1_000_000_000  # of all members, unpacked
MOST_OF_ONE = 1_000_000  # a longer one is no answer
# Notebooks have pictures in them; zip files, and a platform's own list.
LARGE = (".ipynb", ".zip", "submission_metadata.yml")
MOST_OF_LARGE = 20_000_000
MOST_DEPTH = 16  # folders in one another
MOST_NAME = 4_096  # characters of a path
# Of all zip files that were handed in, together; and the files of one.
MOST_INSIDE = 200_000_000
MOST_MEMBERS_INSIDE = 1_000
# What a computer adds by itself.
JUNK = (
    "__MACOSX",
    "Thumbs.db",
    "desktop.ini",
    ".DS_Store",
    ".git",
    ".idea",
    ".ipynb_checkpoints",
    ".vscode",
)
# Archives that are not read, by their first bytes.
OTHERS = {
    b"7z\xbc\xaf\x27\x1c": "a 7z archive",
    b"Rar!": "a RAR archive",
    b"\x1f\x8b": "packed by gzip",
    b"BZh": "packed by bzip2",
    b"\xfd7zXZ": "packed by xz",
}
ENCRYPTED = 0x1
UTF_8 = 0x800


@dataclass(frozen=True)
class Member:
    """A file of the archive: its folders and its name, and what it has; or why it is not read."""

    path: tuple[str, ...]
    content: bytes = b""
    fault: str = ""
    whole: str = ""  # the path in the archive, where `path` is only the end of it
    has_name: bool = True  # whether its path may say whose it is

    @property
    def label(self) -> str:
        """The path as it is told."""
        return self.whole or "/".join(self.path)


def members(source: Path) -> Iterator[Member]:
    """The files of a zip file or a folder, but those that a computer adds by itself; a Fault where
    it is neither, or passes a bound."""
    if source.is_dir():
        yield from _below(source)
    elif source.is_file():
        yield from _of_zip(source)
    else:
        raise Fault(f"there is no file or folder {shown(os.fspath(source))}")


def is_junk(path: tuple[str, ...]) -> bool:
    return any(part in JUNK or part.startswith("._") for part in path)


def most_of(path: tuple[str, ...]) -> int:
    """How many bytes a file of this name may have."""
    return MOST_OF_LARGE if path[-1].casefold().endswith(LARGE) else MOST_OF_ONE


def bounded(path: tuple[str, ...], content: bytes) -> Member:
    most = most_of(path)
    if len(content) > most:
        return Member(path, fault=f"more than {most:,} bytes")
    return Member(path, content)


def _of_zip(source: Path) -> Iterator[Member]:
    name = shown(os.fspath(source))
    try:
        archive = zipfile.ZipFile(source)
    except (zipfile.BadZipFile, ValueError, NotImplementedError):
        raise Fault(f"{name} is no zip file{_instead(source)}") from None
    with closing(archive):
        listed = [info for info in archive.infolist() if not info.is_dir()]
        if len(listed) > MOST_MEMBERS:
            raise Fault(f"{name}: more than {MOST_MEMBERS:,} files")
        if sum(info.file_size for info in listed) > MOST_BYTES:
            raise Fault(f"{name}: more than {MOST_BYTES:,} bytes, unpacked")
        total = 0
        for member in _files_of(archive, listed):
            total += len(member.content)
            if total > MOST_BYTES:
                raise Fault(f"{name}: more than {MOST_BYTES:,} bytes, unpacked")
            yield member


def _instead(source: Path) -> str:
    """What to do about a file that is no zip file."""
    with open(source, "rb") as file:
        begin = file.read(8)
    if begin.startswith(b"PK"):
        return ": its end is missing. Download it again"
    kind = next((kind for sign, kind in OTHERS.items() if begin.startswith(sign)), "")
    return f" but {kind}: unpack it, and name the folder" if kind else ""


def _files_of(archive: zipfile.ZipFile, listed: list[zipfile.ZipInfo]) -> Iterator[Member]:
    for info in listed:
        path = tuple(_name(info).replace("\\", "/").split("/"))
        if fault := _fault_of_name(path):
            yield Member(path, fault=fault, has_name=False)
        elif is_junk(path):
            continue
        elif fault := _fault_of(path, info):
            yield Member(path, fault=fault)
        else:
            yield _read(archive, info, path)


class Inside:
    """The files of zip files that were handed in, within bounds that hold for all of them."""

    def __init__(self) -> None:
        self._left = MOST_INSIDE

    def members(self, member: Member) -> list[Member]:
        """The files of one, with their paths below its own; itself with a fault where it is not
        opened."""
        try:
            archive = zipfile.ZipFile(io.BytesIO(member.content))
        except (zipfile.BadZipFile, ValueError, NotImplementedError):
            return [self._refused(member, "it is a broken zip file, and no text of a query")]
        with closing(archive):
            listed = [info for info in archive.infolist() if not info.is_dir()]
            if len(listed) > MOST_MEMBERS_INSIDE:
                return [self._refused(member, f"more than {MOST_MEMBERS_INSIDE:,} files")]
            found = []
            for inner in _files_of(archive, listed):
                self._left -= len(inner.content)
                if self._left < 0:
                    why = f"the zip files in the archive have more than {MOST_INSIDE:,} bytes"
                    return [self._refused(member, why)]
                path = (*member.path, *inner.path)
                label = f"{member.label}/{'/'.join(inner.path)}"
                found.append(replace(inner, path=path, whole=label))
        return found or [self._refused(member, "no file is in it")]

    @staticmethod
    def _refused(member: Member, why: str) -> Member:
        return replace(member, content=b"", fault=why)


def _name(info: zipfile.ZipInfo) -> str:
    """The name; where nothing says how it is written, as UTF-8 if it is that, else as the format
    has it."""
    if info.flag_bits & UTF_8:
        return info.filename
    try:
        return info.filename.encode("cp437").decode()
    except UnicodeError:
        return info.filename


def _fault_of_name(path: tuple[str, ...]) -> str:
    """Why a path says nothing; empty where it is as one should be."""
    if sum(map(len, path)) > MOST_NAME:
        return f"its name has more than {MOST_NAME:,} characters"
    if not path[0] or ":" in path[0] or any(part in ("", ".", "..") for part in path):
        return "its name leads out of the archive"
    if any(has_bad_sign(part) for part in path):
        return "its name has signs that no name has"
    return ""


def _fault_of(path: tuple[str, ...], info: zipfile.ZipInfo) -> str:
    """Why a member is not read; empty where it is."""
    kind = stat.S_IFMT(info.external_attr >> 16)
    if kind not in (0, stat.S_IFREG):
        return "a link, which is not followed" if kind == stat.S_IFLNK else "no plain file"
    if info.flag_bits & ENCRYPTED:
        return "it is encrypted"
    # Python bounds what it unpacks of no others, whatever is asked for.
    if info.compress_type not in (zipfile.ZIP_STORED, zipfile.ZIP_DEFLATED):
        return "it is packed neither as stored nor as deflated"
    return f"more than {most_of(path):,} bytes" if info.file_size > most_of(path) else ""


def _read(archive: zipfile.ZipFile, info: zipfile.ZipInfo, path: tuple[str, ...]) -> Member:
    """The member, of which no more is unpacked than one may have."""
    try:
        with archive.open(info) as file:
            content = file.read(most_of(path) + 1)
    except (
        zipfile.BadZipFile,
        zlib.error,
        EOFError,
        OSError,
        RuntimeError,
        NotImplementedError,
        ValueError,
    ) as fault:
        return Member(path, fault=f"it can't be unpacked: {fault}")
    return bounded(path, content)


def _below(source: Path) -> Iterator[Member]:
    """The files below a folder, in the order of their names."""
    count = total = 0
    for path, fault, descriptor in _walk(os.open(source, os.O_RDONLY | os.O_DIRECTORY), ()):
        count += 1
        if count > MOST_MEMBERS:
            raise Fault(f"{shown(os.fspath(source))}: more than {MOST_MEMBERS:,} files")
        if fault:
            yield Member(path, fault=fault)
            continue
        with os.fdopen(descriptor, "rb") as file:
            content = file.read(most_of(path) + 1)
        total += len(content)
        if total > MOST_BYTES:
            raise Fault(f"{shown(os.fspath(source))}: more than {MOST_BYTES:,} bytes")
        yield bounded(path, content)


def _walk(folder: int, path: tuple[str, ...]) -> Iterator[tuple[tuple[str, ...], str, int]]:
    """Each file below an open folder with its descriptor, or why it is not opened."""
    try:
        for name in sorted(os.listdir(folder)):
            inner = (*path, os.fsencode(name).decode("utf-8", "backslashreplace"))
            if is_junk(inner):
                continue
            try:
                kind = stat.S_IFMT(os.stat(name, dir_fd=folder, follow_symlinks=False).st_mode)
                is_folder = kind == stat.S_IFDIR and len(path) < MOST_DEPTH
                descriptor = -1
                if is_folder or kind == stat.S_IFREG:
                    flags = os.O_DIRECTORY if is_folder else os.O_NONBLOCK
                    descriptor = os.open(name, os.O_RDONLY | os.O_NOFOLLOW | flags, dir_fd=folder)
            except OSError as fault:
                yield inner, fault.strerror or str(fault), -1
                continue
            if is_folder:
                yield from _walk(descriptor, inner)
            elif kind == stat.S_IFREG:
                yield inner, "", descriptor
            else:
                yield inner, (
                    "a link, which is not followed" if kind == stat.S_IFLNK else "no plain file"
                ), -1
    finally:
        os.close(folder)
