"""Which task a file's name means: names as students, browsers and editors write them."""
from __future__ import annotations

import pytest
from classroom.platforms.task_names import task_named

FIVE = ("1", "2", "3", "4", "5")


@pytest.mark.parametrize(
    ("file", "task"),
    [
        ("1.sql", "1"),
        ("1.SQL", "1"),
        ("1 (1).sql", "1"),
        ("1 (1) (2).sql", "1"),
        ("task1.sql", "1"),
        ("Task 1.sql", "1"),
        ("task_1.sql", "1"),
        ("Task_01.sql", "1"),
        ("2.sql.txt", "2"),
        ("1.sql.sql", "1"),
        ("01.sql", "1"),
        ("1-copy.sql", "1"),
        ("1-final.sql", "1"),
        ("1.sql ", "1"),
        ("anna-1.sql", "1"),
        ("aufgabe-1.sql", "1"),
        ("q1.sql", "1"),
        # Two tasks, none, or another number.
        ("1-2.sql", None),
        ("homework.sql", None),
        ("11.sql", None),
        ("6.sql", None),
    ],
)
def test_numbers(file: str, task: str | None) -> None:
    assert task_named(file, FIVE) == task


@pytest.mark.parametrize(
    ("file", "task"),
    [
        ("joins.sql", "joins"),
        ("my joins.sql", "joins"),
        ("Joins (3).txt", "joins"),
        ("outer joins.sql", "outer joins"),
        ("outer-joins-v2.sql", "outer joins"),
        ("adjoins.sql", None),
    ],
)
def test_words(file: str, task: str | None) -> None:
    tasks = ("joins", "outer joins") if task != "joins" else ("joins", "sets")
    assert task_named(file, tasks) == task


def test_a_task_of_the_exact_name_goes_before() -> None:
    assert task_named("1 (1).sql", ("1", "1 (1)")) == "1 (1)"
    assert task_named("1-final.sql", ("1", "1-final")) == "1-final"
