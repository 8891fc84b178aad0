"""On a full disk a command ends with one line, and what was there stays; with room again the same
command does all of it."""
from __future__ import annotations

import os
import shutil
import subprocess
from collections.abc import Iterator
from pathlib import Path

import made_archives
import products
import pytest

PAGE = 4096
ROOM = 4_000_000
STEPS = 6


class Disk:
    """A file system in memory, of a size that can be changed."""

    def __init__(self, place: Path) -> None:
        self.place = place

    def used(self) -> int:
        found = os.statvfs(self.place)
        return (found.f_blocks - found.f_bfree) * found.f_frsize

    def resize(self, size: int) -> None:
        words = ["mount", "-o", f"remount,size={size}", str(self.place)]
        subprocess.run(words, check=True)


@pytest.fixture
def disk(tmp_path: Path) -> Iterator[Disk]:
    place = tmp_path / "disk"
    place.mkdir()
    words = ["mount", "-t", "tmpfs", "-o", f"size={ROOM}", "classroom", str(place)]
    if os.geteuid() != 0 or subprocess.run(words, capture_output=True, check=False).returncode:
        pytest.skip("a file system of its own is mounted by root alone")
    try:
        yield Disk(place)
    finally:
        subprocess.run(["umount", "--lazy", str(place)], check=True)


def contents(folder: Path) -> dict[str, bytes]:
    """All files but those that say how long something took, or when."""
    return {
        str(path.relative_to(folder)): path.read_bytes()
        for path in sorted(folder.rglob("*"))
        if path.is_file()
        and not {"runs", "tasks"} & set(path.parts)
        and path.name not in ("grades.csv", "results.json", "graded.json", "teacher.html")
    }


def class_of(folder: Path) -> Path:
    """An exercise with answers that were graded, and an archive with others beside it."""
    shutil.copytree(products.TOP / "examples/beers", folder)
    for name in ("results", "grades"):
        shutil.rmtree(folder / name, ignore_errors=True)
    (folder / "class").mkdir(exist_ok=True)
    (folder / "class/students.csv").write_text(made_archives.class_list())
    answers = {
        one.id: {task: f"SELECT name FROM beer -- {one.id} {task}\n" * 80 for task in ("1", "2")}
        for one in made_archives.PEOPLE
    }
    return made_archives.folders(folder.parent / "archive.zip", answers)


@pytest.mark.parametrize("command", ["grade", "feedback", "collect"])
def test_a_full_disk_is_one_line(disk: Disk, ratest: Path, tmp_path: Path, command: str) -> None:
    environment = {"RATEST": str(ratest.absolute()), "PATH": "/usr/bin:/bin"}

    def call(name: str, folder: Path) -> subprocess.CompletedProcess[str]:
        words = [tmp_path / "archive.zip", folder] if name == "collect" else [folder]
        return products.classroom(name, *words, env=environment)

    before = tmp_path / "before"
    class_of(before)
    if command == "feedback":
        assert call("grade", before).returncode == 0
    place = disk.place / "class"
    shutil.copytree(before, place)
    begin = disk.used()
    status = call(command, place).returncode
    wanted, end = contents(place), disk.used()
    assert end > begin + STEPS * PAGE
    faults = 0
    for step in range(STEPS):
        shutil.rmtree(place)
        shutil.copytree(before, place)
        disk.resize(begin + (end - begin) * step // STEPS // PAGE * PAGE)
        ran = call(command, place)
        assert ran.returncode == 1 or step, ran.stderr
        if ran.returncode != status:
            faults += 1
            lines = [one for one in ran.stderr.splitlines() if "No space left on device" in one]
            assert len(lines) == 1 and "could not be written: " in lines[0], ran.stderr
            assert str(place) in lines[0] and "Traceback" not in ran.stderr
        # What was there before is there still, whole.
        kept = contents(place)
        assert all(
            kept.get(name) in (text, wanted.get(name)) for name, text in contents(before).items()
        )
        disk.resize(ROOM)
        assert call(command, place).returncode == status
        assert contents(place) == wanted
    assert faults >= STEPS // 2
