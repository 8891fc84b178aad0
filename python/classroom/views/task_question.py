"""The question of a task, as pages show it."""
from __future__ import annotations

from classroom.base.errors import Missing, library
from classroom.exercise import exercise
from classroom.exercise.exercise import Task
from ratest.draw import escaped, pictures

MOST_QUESTION = 10_000  # characters that are shown of one


def question(task: Task) -> str:
    """The question as HTML, of Markdown without tags of its own and without pictures; empty where
    there is none."""
    try:
        path = task.folder / task.settings.question
        text = exercise.read(path).decode("utf-8", "replace")[:MOST_QUESTION].strip()
    except OSError:
        return ""
    return markdown(text) if text else ""


def markdown(text: str) -> str:
    try:
        found = library("markdown_it", "python3-markdown-it")
    except Missing:
        return f'<p class="plain">{escaped(text)}</p>'
    reader = found.MarkdownIt("commonmark", {"html": False}).enable("table").disable("image")
    return str(reader.render(pictures(text)))
