"""Files of others, read without following links, and files of ours, written as a whole or not at
all.

Each folder of others is opened below the one that has it, so no link, device or pipe that somebody
put among the answers is ever opened, whatever happens meanwhile. """
from __future__ import annotations

import fcntl
import json
import os
import shutil
import stat
from collections.abc import Iterator, Mapping
from contextlib import contextmanager
from pathlib import Path

from classroom.base.errors import Fault, shown, told

NO_FILE = "no plain file"
UNFINISHED = ".unfinished-"
LIST = "written.json"
FLAGS = os.O_RDONLY | os.O_CLOEXEC | os.O_NONBLOCK


def bounded(path: Path, most: int) -> bytes | None:
    """The bytes of a file of the teacher's, None where there is none; a Fault where it can't be
    read, or has more."""
    try:
        with open(path, "rb") as file:
            raw = file.read(most + 1)
    except FileNotFoundError:
        return None
    except OSError as fault:
        raise Fault(f"{shown(os.fspath(path))}: {fault.strerror}") from None
    if len(raw) > most:
        raise Fault(f"{shown(os.fspath(path))}: more than {most:,} bytes")
    return raw


class NotRead(Fault):
    """Why a file or a folder is not read, in a few words without its name."""


class Folder:
    """An open folder."""

    def __init__(self, descriptor: int) -> None:
        self._descriptor = descriptor

    def names(self) -> list[str]:
        return os.listdir(self._descriptor)

    def holds(self, name: str) -> bool:
        """Whether there is anything of this name, a link to nothing too."""
        try:
            os.stat(name, dir_fd=self._descriptor, follow_symlinks=False)
        except OSError:
            return False
        return True

    def is_link(self, name: str) -> bool:
        return stat.S_ISLNK(self._mode(name, False))

    def is_folder(self, name: str) -> bool:
        """Whether it is a folder, or a link to one."""
        return stat.S_ISDIR(self._mode(name, True))

    def _mode(self, name: str, follows: bool) -> int:
        try:
            return os.stat(name, dir_fd=self._descriptor, follow_symlinks=follows).st_mode
        except OSError:
            return 0

    @contextmanager
    def folder(self, name: str) -> Iterator[Folder]:
        """A folder in this one; NotRead where it is none, or a link."""
        if self.is_link(name):
            raise NotRead("a link, which is not followed")
        try:
            descriptor = os.open(
                name, FLAGS | os.O_DIRECTORY | os.O_NOFOLLOW, dir_fd=self._descriptor
            )
        except OSError as fault:
            raise NotRead(fault.strerror or str(fault)) from None
        try:
            yield Folder(descriptor)
        finally:
            os.close(descriptor)

    def read(self, name: str, most: int) -> bytes:
        """The first bytes of a plain file in this folder, at most so many; NotRead where it is
        none."""
        # A device is not even opened.
        if not stat.S_ISREG(self._mode(name, False)):
            raise NotRead(NO_FILE)
        try:
            descriptor = os.open(name, FLAGS | os.O_NOFOLLOW, dir_fd=self._descriptor)
            with os.fdopen(descriptor, "rb") as file:
                if not stat.S_ISREG(os.fstat(descriptor).st_mode):
                    raise NotRead(NO_FILE)
                return file.read(most)
        except OSError as fault:
            raise NotRead(fault.strerror or str(fault)) from None


@contextmanager
def opened(path: str | os.PathLike[str]) -> Iterator[Folder]:
    """The folder that the user named, which may be a link."""
    try:
        descriptor = os.open(path, FLAGS | os.O_DIRECTORY)
    except OSError as fault:
        raise Fault(told(fault)) from None
    try:
        yield Folder(descriptor)
    finally:
        os.close(descriptor)


def write(path: Path, content: bytes) -> None:
    """Writes a file as a whole or not at all; one that has this content already is left as it
    is."""
    try:
        if path.read_bytes() == content:
            return
    except OSError:
        pass
    unfinished = path.parent / f"{UNFINISHED}{os.getpid()}"
    try:
        unfinished.write_bytes(content)
        os.replace(unfinished, path)
    except OSError as fault:
        unfinished.unlink(missing_ok=True)
        raise Fault(f"{shown(str(path))} could not be written: {fault.strerror}") from None


@contextmanager
def locked(folder: Path) -> Iterator[None]:
    """Holds a folder against every other process that does so, for which it waits."""
    descriptor = os.open(folder, FLAGS | os.O_DIRECTORY)
    try:
        fcntl.flock(descriptor, fcntl.LOCK_EX)
        yield
    finally:
        os.close(descriptor)


def replace(path: Path, before: bytes | None, content: bytes) -> bool:
    """Writes a file through to the disk, as a whole or not at all, where it still has the bytes
    `before`, None where there is none; tells whether it had. Its folder has to be locked."""
    unfinished = path.parent / f"{UNFINISHED}{path.name}"
    try:
        with open(unfinished, "wb") as file:
            file.write(content)
            file.flush()
            os.fsync(file.fileno())
        if path.exists():
            shutil.copymode(path, unfinished)
        if (path.read_bytes() if path.exists() else None) != before:
            unfinished.unlink()
            return False
        os.replace(unfinished, path)
        folder = os.open(path.parent, FLAGS | os.O_DIRECTORY)
        try:
            os.fsync(folder)
        finally:
            os.close(folder)
    except OSError as fault:
        unfinished.unlink(missing_ok=True)
        raise Fault(f"{shown(str(path))} could not be written: {fault.strerror}") from None
    return True


def fill(path: Path, content: bytes) -> None:
    """Writes a file that nobody else reads meanwhile; a Fault names it where that can't be."""
    try:
        path.write_bytes(content)
    except OSError as fault:
        raise Fault(f"{shown(str(path))} could not be written: {fault.strerror}") from None


class Written:
    """A folder with a list of what was written into it."""

    def __init__(self, folder: Path) -> None:
        self.folder = folder

    def names(self) -> set[str]:
        """The files that were written, by the list."""
        try:
            return {
                str(name)
                for name in json.loads((self.folder / LIST).read_bytes())
                if "/" not in str(name)
            }
        except (OSError, ValueError, TypeError):
            return set()

    def put(self, files: Mapping[str, bytes]) -> None:
        """Writes these files and removes those that were written before and are none of them. The
        list goes first, so that what a killed run leaves is known."""
        self.folder.mkdir(parents=True, exist_ok=True)
        before = self.names()
        self._list(before | set(files))
        for name, content in files.items():
            write(self.folder / name, content)
        for name in before - set(files):
            (self.folder / name).unlink(missing_ok=True)
        self._list(set(files))

    def _list(self, names: set[str]) -> None:
        write(self.folder / LIST, (json.dumps(sorted(names), indent=1) + "\n").encode("ascii"))
