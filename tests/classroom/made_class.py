"""A class of any size over the tasks of examples/beers: right, wrong and refused answers in many
spellings."""
from __future__ import annotations

import random
import re
import shutil
from pathlib import Path

TOP = Path(__file__).resolve().parents[2]
REFUSED = (
    "SELECT count(*) FROM bar",
    "SELECT nmae FROM drinker",
    "SELECT name, city FROM drinker",
    "SELECT FROM bar",
    "SELECT name FROM drinker WHERE city = 3",
    'SELECT name FROM "bars\nof\nJoe: agree"',
    "",
)


def make(folder: Path, count: int, seed: int = 45) -> None:
    """Writes the exercise into a folder with so many answers, the same ones for each seed."""
    shutil.copytree(
        TOP / "examples/beers", folder, ignore=shutil.ignore_patterns("results", "answers")
    )
    chosen = random.Random(seed)
    for student in range(count // 5):
        for task in "12345":
            answers = folder / task / "answers"
            answers.mkdir(exist_ok=True)
            (answers / f"student {student}.sql").write_text(
                spelled(text(task, chosen), student, chosen)
            )


def text(task: str, chosen: random.Random) -> str:
    if chosen.random() < 0.1:
        return chosen.choice(REFUSED)
    source = TOP / "examples/beers" / task
    wrong = sorted((source / "answers").glob("[abc].sql"))
    return (source / "reference.sql" if chosen.random() < 0.3 else chosen.choice(wrong)).read_text()


def spelled(query: str, student: int, chosen: random.Random) -> str:
    """The query as one of many would type it: comments, white space, capitals."""
    if chosen.random() < 0.8:
        query = re.sub("^--.*\n", "", query, flags=re.MULTILINE)
    if chosen.random() < 0.3:
        query = re.sub(r"\b[A-Z]{2,}\b", lambda word: word[0].lower(), query)
    if chosen.random() < 0.3:
        query = query.replace("\n", chosen.choice((" ", "\n\n", "\r\n", "\n    ")))
    if chosen.random() < 0.2:
        query = re.sub(r"(?<= )(?=\w)", " ", query)
    if chosen.random() < 0.4:
        query = f"-- student {student}\n{query}"
    return query + chosen.choice(("", ";", "\n"))


def left(folder: Path) -> str:
    """What is told on standard error of a class: the answers that `ratest` refuses, since no
    database is asked."""
    texts = [
        " ".join(re.sub("--[^\n]*", "", path.read_text().lower()).split())
        for path in folder.glob("*/answers/*.sql")
    ]
    refused = ("count(*)", "city = 3", "nmae", "select from bar", '"bars')
    by_hand = sum(not text.strip("; ") or any(word in text for word in refused) for text in texts)
    return f"classroom: {by_hand} of {len(texts)} answers are to be graded by hand\n"
