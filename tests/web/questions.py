"""Questions for the program: those of the examples, random ones, and hostile ones."""
from __future__ import annotations

import itertools
import os
import subprocess
import tempfile
from collections.abc import Iterator
from dataclasses import dataclass
from pathlib import Path
from random import Random

from compare.by_broken import broken
from compare.command import case_of
from compare.draw import Limits
from compare.model import csv_text, schema
from compare.program import query_text

TOP = Path(__file__).resolve().parents[2]
WORDS = ("schema.sql", "data", "1.sql", "2.sql")
# Arguments of which some are wrong.
ARGUMENTS: tuple[tuple[str, ...], ...] = (
    (),
    ("made",),
    ("made", "0"),
    ("made", "1"),
    ("made", "20"),
    ("made", "401"),
    ("made", "60", "--conflicts", "3"),
    ("nothing",),
    WORDS[:3],
    (*WORDS, "more"),
    (*WORDS, "--work", "1"),
    (*WORDS, "--work", "0"),
    (*WORDS, "--conflicts", "1"),
    (*WORDS, "--conflicts", "10000001"),
    ("schema.sql", "data", "1.sql", "none.sql"),
    ("none.sql", "data", "1.sql", "2.sql"),
    ("schema.sql", "elsewhere", "1.sql", "2.sql"),
    ("schema.sql", "data", "größe", "☃"),
)
SECONDS = 60.0


@dataclass(frozen=True)
class Question:
    words: tuple[str, ...]
    files: dict[str, bytes]


@dataclass(frozen=True)
class Reply:
    status: int
    out: bytes
    err: bytes


def questions(count: int) -> list[Question]:
    """So many, half of the random ones with broken texts."""
    found = list(itertools.islice(examples(), count // 3))
    odd = [Question(words, found[0].files) for words in ARGUMENTS]
    return found + odd + list(itertools.islice(random_ones(), count - len(found) - len(odd)))


def examples() -> Iterator[Question]:
    """Each two of the queries of an exercise, those of different exercises in turn."""
    for questions_of_each in itertools.zip_longest(
        *map(pairs, sorted((TOP / "examples").glob("*/schema.sql")))
    ):
        yield from filter(None, questions_of_each)


def pairs(path: Path) -> list[Question]:
    folder = path.parent
    texts = {
        "schema.sql": path.read_bytes(),
        **{f"data/{it.name}": it.read_bytes() for it in folder.glob("*.csv")},
    }
    found = [it.read_bytes() for it in sorted(folder.rglob("*.sql")) if it != path]
    return [
        Question(WORDS, {**texts, "1.sql": first, "2.sql": second})
        for first, second in itertools.product(found, found)
    ]


def random_ones() -> Iterator[Question]:
    for seed in itertools.count():
        question = of_seed(seed, Limits(rows=20 if seed % 4 == 0 else 7))
        yield question
        random = Random(seed)
        name = random.choice(sorted(question.files))
        yield Question(
            question.words, {**question.files, name: broken(question.files[name], random)}
        )


def of_seed(seed: int, limits: Limits) -> Question:
    case = case_of(seed, limits)
    texts = {
        "schema.sql": schema(case, "ratest"),
        "1.sql": query_text(case.first),
        "2.sql": query_text(case.second),
        **{
            f"data/{table.name}.csv": csv_text(table, case.rows[table.name])
            for table in case.tables
        },
    }
    return Question(WORDS, {name: text.encode() for name, text in texts.items()})


def hard() -> Question:
    """One that takes many seconds: the fewest of 40 numbers that have one in each of 120 triples.

    A number that is kept needs the first triple, and each triple the next one, so that all of them
    are kept."""
    random = Random(1)
    triples = [random.sample(range(40), 3) for _ in range(120)]
    rows = "".join(
        f"{at},{','.join(map(str, triple))},{at + 1 if at < 119 else ''}\n"
        for at, triple in enumerate(triples)
    )
    texts = {
        "schema.sql": (
            "CREATE TABLE e (id INTEGER PRIMARY KEY, a INTEGER, b INTEGER, c INTEGER,\n  next"
            " INTEGER REFERENCES e (id));\nCREATE TABLE v (a INTEGER, head INTEGER REFERENCES e"
            " (id));\n"
        ),
        "data/e.csv": f"id,a,b,c,next\n{rows}",
        "data/v.csv": "a,head\n" + "".join(f"{at},0\n" for at in range(40)),
        "1.sql": "SELECT a FROM v WHERE a < 0\n",
        "2.sql": (
            "SELECT 1 FROM v x WHERE NOT EXISTS (SELECT * FROM e WHERE NOT EXISTS (\n"
            "  SELECT * FROM v y WHERE y.a = e.a OR y.a = e.b OR y.a = e.c))\n"
        ),
    }
    return Question(WORDS, {name: text.encode() for name, text in texts.items()})


def large() -> list[Question]:
    """Texts of up to a megabyte, long or deep, and a query of many columns."""
    stars = "SELECT s.*, s.* FROM (" * 16 + "SELECT a FROM t" + ") s" * 16
    firsts = (" UNION ".join(["SELECT a FROM t"] * 40_000), "(" * 1_000_000, stars)
    files = {
        "schema.sql": b"CREATE TABLE t (a INTEGER);\n",
        "data/t.csv": b"a\n1\n2\n",
        "2.sql": stars.encode(),
    }
    return [Question(WORDS, {**files, "1.sql": first.encode()}) for first in firsts]


def native(program: Path, question: Question) -> Reply:
    """What the native program answers."""
    with tempfile.TemporaryDirectory(prefix="ratest-web-") as folder:
        for name, content in question.files.items():
            path = Path(folder) / name
            path.parent.mkdir(exist_ok=True)
            path.write_bytes(content)
        ran = subprocess.run(
            [program.absolute(), *question.words],
            cwd=folder,
            stdin=subprocess.DEVNULL,
            capture_output=True,
            timeout=SECONDS,
            check=False,
            env={"PATH": os.defpath},
        )
    return Reply(ran.returncode, ran.stdout, ran.stderr)
