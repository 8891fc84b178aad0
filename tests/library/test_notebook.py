"""The notebooks of the examples run, and print what their readers are told."""
from __future__ import annotations

from pathlib import Path
from typing import Any

import pytest

NOTEBOOKS = Path(__file__).resolve().parents[2] / "examples/notebook"
SECONDS = 120


def ran(
    name: str, shared: Path, monkeypatch: pytest.MonkeyPatch, allow_errors: bool = False
) -> Any:
    """The notebook after a run of all its cells."""
    nbclient, nbformat = pytest.importorskip("nbclient"), pytest.importorskip("nbformat")
    pytest.importorskip("ipykernel")
    monkeypatch.setenv("LIBRATEST", str(shared))
    monkeypatch.setenv("PYTHONPATH", str(NOTEBOOKS.parents[1] / "python"))
    monkeypatch.setenv("PYTHONDONTWRITEBYTECODE", "1")
    notebook = nbformat.read(NOTEBOOKS / name, as_version=4)
    nbformat.validate(notebook)
    return nbclient.NotebookClient(
        notebook, timeout=SECONDS, kernel_name="python3", allow_errors=allow_errors
    ).execute()


def printed(cell: Any) -> str:
    return "".join(output.get("text", "") for output in cell.outputs)


def test_explain(shared: Path, monkeypatch: pytest.MonkeyPatch) -> None:
    cells = [
        cell for cell in ran("explain.ipynb", shared, monkeypatch).cells if cell.cell_type == "code"
    ]
    # By hand: a bar and its two beers, one of an unknown price; with one beer the queries agree.
    assert (
        printed(cells[2])
        == "witness: 3\nbar 1: 'Joe''s', 'Durham'\nserves 1: 'Joe''s', 'Dixie', 3\nserves 2:"
        " 'Joe''s', 'Corona', NULL\nonly query 1: 0\nonly query 2: 1\n  'Joe''s'\nboth: 0\n\n"
    )
    page = cells[3].outputs[0].data["text/html"]
    assert (
        "The queries differ on 3 rows, and on no fewer" in page
        and "<caption>serves</caption>" in page
    )
    assert printed(cells[4]).count("INSERT INTO") == 3
    assert printed(cells[5]) == "3 rows\n" and cells[5].outputs[-1].data["text/plain"] == "Agree()"
    assert printed(cells[6]) == "query 2: syntax fault near byte 42 (line 3, column 16)\n"


def test_references_of_the_homework_are_hidden_from_students() -> None:
    """What nbgrader leaves out for students is all that has a reference."""
    nbformat = pytest.importorskip("nbformat")
    cells = [
        cell
        for cell in nbformat.read(NOTEBOOKS / "homework.ipynb", as_version=4).cells
        if cell.metadata.get("nbgrader", {}).get("grade")
    ]
    assert len(cells) == 2
    for cell in cells:
        lines = cell.source.splitlines()
        assert (lines[0], lines[-1]) == (
            "### BEGIN HIDDEN TESTS",
            "### END HIDDEN TESTS",
        ) and lines[1].startswith("check(")


def test_homework(shared: Path, monkeypatch: pytest.MonkeyPatch) -> None:
    cells = [
        cell
        for cell in ran("homework.ipynb", shared, monkeypatch, allow_errors=True).cells
        if cell.cell_type == "code"
    ]
    graded = [cell for cell in cells if cell.metadata.get("nbgrader", {}).get("grade")]
    failed = [
        [output for output in cell.outputs if output.output_type == "error"] for cell in graded
    ]
    assert [len(errors) for errors in failed] == [1, 0]
    assert failed[0][0].ename == "AssertionError"
    # By hand: the answer forgets that others may like Ben's beer too, which two rows of likes and
    # the beer show.
    assert failed[0][0].evalue.startswith(
        "the answer is wrong here:\nwitness: 3\nbeer 2: 'Corona', 'Grupo Modelo'\n"
        "likes 2: 'Amy', 'Corona'\nlikes 3: 'Ben', 'Corona'\nonly query 1: 0\nonly query 2: 1\n"
    )
