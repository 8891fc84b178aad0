"""Archives as learning platforms export them, made of a class: zip files of each form, and some
that are hostile.

As a program it writes one of each into a folder: `made_archives.py FOLDER`.
"""
from __future__ import annotations

import stat
import sys
import unicodedata
import zipfile
from collections.abc import Iterable, Mapping
from dataclasses import dataclass
from pathlib import Path


@dataclass(frozen=True)
class Person:
    """A student, as the platforms know them."""

    id: str
    name: str
    moodle: str
    canvas: str

    @property
    def canvas_name(self) -> str:
        """The last name and the first, small and in one word, without marks."""
        first, _, last = self.name.rpartition(" ")
        plain = unicodedata.normalize("NFKD", last + first).encode("ascii", "ignore").decode()
        return "".join(letter for letter in plain.lower() if letter.isalnum())


# Names with blanks, umlauts, a quote, and one that is another's as well.
PEOPLE = (
    Person("anna", "Anna Maria Schäfer", "12345", "101"),
    Person("ben", "Ben O'Neill", "12346", "102"),
    Person("jörg", "Jörg Müller", "12347", "103"),
    Person("li", "Li Na", "12348", "104"),
)
# What each answers, by task.
Answers = Mapping[str, Mapping[str, str]]


def class_list(people: Iterable[Person] = PEOPLE) -> str:
    return "id,name,moodle,canvas\n" + "".join(
        f"{one.id},{one.name},{one.moodle},{one.canvas}\n" for one in people
    )


def written(path: Path, members: Iterable[tuple[str, str | bytes]]) -> Path:
    with zipfile.ZipFile(path, "w", zipfile.ZIP_DEFLATED) as archive:
        for name, content in members:
            archive.writestr(name, content)
    return path


def moodle(path: Path, answers: Answers, people: Iterable[Person] = PEOPLE) -> Path:
    """ "Download all submissions", in folders."""
    return written(
        path,
        [
            (f"{one.name}_{one.moodle}_assignsubmission_file_/{task}.sql", text)
            for one in people
            for task, text in answers.get(one.id, {}).items()
        ],
    )


def online(path: Path, answers: Answers, people: Iterable[Person] = PEOPLE) -> Path:
    """The same for what was typed at the platform: all tasks of a student in one text of HTML."""
    members = []
    for one in people:
        lines = [
            line
            for task, text in answers.get(one.id, {}).items()
            for line in (f"-- task {task}", *text.splitlines())
        ]
        page = "".join(
            f"<p>{line.replace('&', '&amp;').replace('<', '&lt;').replace('  ', ' &nbsp;')}</p>"
            for line in lines
        )
        members.append(
            (
                f"{one.name}_{one.moodle}_assignsubmission_onlinetext_/onlinetext.html",
                f"<html><head><title>x</title></head><body>{page}</body></html>",
            )
        )
    return written(path, members)


def canvas(
    path: Path,
    answers: Answers,
    people: Iterable[Person] = PEOPLE,
    late: Iterable[str] = (),
    again: Iterable[str] = (),
) -> Path:
    """Late ones are marked; who handed in again has an older text under a smaller number too."""
    members = []
    for number, one in enumerate(people):
        for at, (task, text) in enumerate(answers.get(one.id, {}).items()):
            mark = "_LATE" if one.id in late else ""
            base = 45_000 + 100 * number + 10 * at
            if one.id in again:
                members.append(
                    (f"{one.canvas_name}{mark}_{one.canvas}_{base + 1}_{task}-1.sql", text)
                )
                members.append(
                    (
                        f"{one.canvas_name}{mark}_{one.canvas}_{base}_{task}.sql",
                        "SELECT 'an older text'\n",
                    )
                )
            else:
                members.append((f"{one.canvas_name}{mark}_{one.canvas}_{base}_{task}.sql", text))
    return written(path, members)


def nbgrader(folder: Path, answers: Answers, assignment: str = "sql1") -> Path:
    for who, texts in answers.items():
        place = folder / "submitted" / who / assignment
        place.mkdir(parents=True)
        (place / "timestamp.txt").write_text("2026-11-30 12:00:00 UTC\n")
        for task, text in texts.items():
            (place / f"{task}.sql").write_text(text, encoding="utf-8")
    return folder


def folders(path: Path, answers: Answers) -> Path:
    """One file a student with all tasks in it, parted by comments."""
    return written(
        path,
        [
            (f"{who}/all.sql", "".join(f"-- task {task}\n{text}\n" for task, text in texts.items()))
            for who, texts in answers.items()
        ],
    )


def hostile(path: Path) -> Path:
    """Names that lead out of the archive, a link, a device, what the archive says to be small and
    is not, and one answer as it should be."""
    made = written(
        path,
        [
            ("../../outside/1.sql", "SELECT 1\n"),
            ("/etc/cron.d/1.sql", "SELECT 1\n"),
            ("ben/..\\..\\1.sql", "SELECT 1\n"),
            ("C:/ben/1.sql", "SELECT 1\n"),
            ("ben/\x1b[2J/1.sql", "SELECT 1\n"),
            ("li/1.sql", b"-" * 20_000_000),
            ("jörg/1.sql", "SELECT 4\n"),
            ("anna/inner.zip", b"PK\x03\x04"),
        ],
    )
    with zipfile.ZipFile(made, "a") as archive:
        for name, kind in (("anna/1.sql", stat.S_IFLNK), ("anna/2.sql", stat.S_IFCHR)):
            info = zipfile.ZipInfo(name)
            info.external_attr = (kind | 0o777) << 16
            archive.writestr(info, "/etc/passwd")
    return made


def bomb(path: Path, files: int, megabytes: int) -> Path:
    """Many files that unpack to much."""
    content = bytes(megabytes * 1_000_000 // files)
    return written(path, [(f"student{number}/1.sql", content) for number in range(files)])


def main(folder: Path) -> None:
    answers = {
        one.id: {"1": f"SELECT name -- {one.name}\nFROM drinker\n", "2": "SELECT 1\n"}
        for one in PEOPLE
    }
    folder.mkdir(parents=True, exist_ok=True)
    moodle(folder / "moodle.zip", answers)
    online(folder / "online.zip", answers)
    canvas(folder / "canvas.zip", answers, late=["ben"], again=["li"])
    folders(folder / "folders.zip", answers)
    nbgrader(folder / "nbgrader", answers)
    hostile(folder / "hostile.zip")
    (folder / "students.csv").write_text(class_list(), encoding="utf-8")


if __name__ == "__main__":
    main(Path(sys.argv[1]))
