"""The files of small exercises, cut to each length, and with each byte exchanged by others: each
call ends twice with the same known status, and writes to one of its two outputs."""
from __future__ import annotations

import os
import shutil
from concurrent.futures import ThreadPoolExecutor
from pathlib import Path
from typing import Iterable

import pytest
from limited import Ended, ended

BYTES = b"\x00\t\n\r \"'()*,-0a;\xff"
WORKERS = os.cpu_count() or 1
# In the gate every so many of the changed texts is tried; HOSTILE_ALL=1 tries all.
STEP = 1 if os.environ.get("HOSTILE_ALL") else 5


def copied(top: Path, folder: Path) -> Path:
    shutil.copytree(top / "examples/university", folder)
    return folder


def cuts(text: bytes) -> Iterable[bytes]:
    return (text[:length] for length in range(len(text)))


def exchanges(text: bytes) -> Iterable[bytes]:
    return (text[:at] + bytes([byte]) + text[at + 1 :] for at in range(len(text)) for byte in BYTES)


def is_good(one: Ended, other: Ended) -> bool:
    if (one.status, one.out, one.err) != (other.status, other.out, other.err):
        return False
    if one.status in (0, 1, 4):
        return bool(one.out) and not one.err
    return one.status in (2, 3, 5, 6, 8) and bool(one.err) and not one.out


def wrong(words: list[str], file: Path, texts: Iterable[bytes], folder: Path) -> list[bytes]:
    """Those texts that end badly in the place of a file, which `words` name."""

    def tried(numbered: tuple[int, bytes]) -> bytes | None:
        number, text = numbered
        # Each text in a folder of its own, where tables are looked for, so that many can be tried
        # at once.
        place = folder / f"{file.name}-{number}"
        shutil.copytree(file.parent, place)
        (place / file.name).write_bytes(text)
        moved = [
            (
                str(place) + word[len(str(file.parent)) :]
                if word.startswith(str(file.parent))
                else word
            )
            for word in words
        ]
        good = is_good(ended(moved), ended(moved))
        shutil.rmtree(place)
        return None if good else text

    with ThreadPoolExecutor(WORKERS) as pool:
        every = [(number, text) for number, text in enumerate(texts) if number % STEP == 0]
        return [text for text in pool.map(tried, every) if text is not None]


@pytest.fixture
def exercise(top: Path, tmp_path: Path) -> Path:
    return copied(top, tmp_path / "exercise")


def plain(exercise: Path, *queries: str) -> list[str]:
    return [f"{exercise}/schema.sql", f"{exercise}"] + [f"{exercise}/{query}" for query in queries]


@pytest.mark.parametrize(
    "name", ["schema.sql", "student.csv", "reg.csv", "query1.sql", "query2.sql"]
)
def test_files_that_are_cut(name: str, ratest: Path, exercise: Path, tmp_path: Path) -> None:
    text = (exercise / name).read_bytes()
    words = [str(ratest), *plain(exercise, "query1.sql", "query2.sql")]
    assert wrong(words, exercise / name, cuts(text), tmp_path) == []


def test_a_query_with_a_byte_exchanged(ratest: Path, exercise: Path, tmp_path: Path) -> None:
    text = (exercise / "query1.sql").read_bytes()
    words = [str(ratest), *plain(exercise, "query1.sql", "query2.sql")]
    assert wrong(words, exercise / "query1.sql", exchanges(text), tmp_path) == []


@pytest.mark.parametrize("change", [cuts, exchanges], ids=["cut", "exchanged"])
def test_algebra_texts(change: object, ratest_plus: Path, exercise: Path, tmp_path: Path) -> None:
    text = (exercise / "7.ra").read_bytes()
    words = [str(ratest_plus), "ra", *plain(exercise, "7.ra", "7a.ra")]
    assert callable(change)
    assert wrong(words, exercise / "7.ra", change(text), tmp_path) == []


@pytest.mark.parametrize("change", [cuts, exchanges], ids=["cut", "exchanged"])
def test_lists(change: object, ratest_plus: Path, exercise: Path, tmp_path: Path) -> None:
    text = f"{exercise}/query1.sql\r\n\n{exercise}/query2.sql".encode()
    (exercise / "list").write_bytes(text)
    words = [str(ratest_plus), "grade", *plain(exercise, "query1.sql"), f"{exercise}/list"]
    assert callable(change)
    assert wrong(words, exercise / "list", change(text), tmp_path) == []


@pytest.mark.parametrize("change", [cuts, exchanges], ids=["cut", "exchanged"])
def test_certificates(change: object, ratest_plus: Path, exercise: Path, tmp_path: Path) -> None:
    queries = plain(exercise, "query1.sql", "query2.sql")
    made = ended([str(ratest_plus), "prove", *queries])
    assert made.status == 0
    (exercise / "certificate").write_bytes(made.out)
    words = [str(ratest_plus), "check", f"{exercise}/certificate", *queries]
    assert callable(change)
    assert wrong(words, exercise / "certificate", change(made.out), tmp_path) == []


def test_numbers_of_every_length_in_a_certificate(
    ratest_plus: Path, exercise: Path, tmp_path: Path
) -> None:
    queries = plain(exercise, "query1.sql", "query2.sql")
    made = ended([str(ratest_plus), "prove", *queries]).out
    (exercise / "certificate").write_bytes(made)
    head, _, _ = made.partition(b"\nd ")
    texts = [
        head + b"\nd +" + b"9" * digits + b" ; " + b"9" * other + b"\nend\n"
        for digits in range(1, 41)
        for other in (1, digits)
    ]
    words = [str(ratest_plus), "check", f"{exercise}/certificate", *queries]
    assert wrong(words, exercise / "certificate", texts, tmp_path) == []
