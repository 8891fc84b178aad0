"""What is said of a library that is not there: the line that installs it where the program runs."""
from __future__ import annotations

import sys
from types import ModuleType
from typing import Any, cast

import pytest
from classroom.base.errors import EXTRAS, Missing, library


def told(monkeypatch: pytest.MonkeyPatch, name: str, prefix: str) -> str:
    monkeypatch.setitem(cast(dict[str, Any], sys.modules), name, None)
    monkeypatch.setattr(sys, "base_prefix", "/usr")
    monkeypatch.setattr(sys, "prefix", prefix)
    with pytest.raises(Missing) as fault:
        library(name, "python3-jinja2")
    return str(fault.value)


def test_the_line_is_that_of_debian(monkeypatch: pytest.MonkeyPatch) -> None:
    line = "the library jinja2 is not there: apt-get install python3-jinja2"
    assert told(monkeypatch, "jinja2", "/usr") == line


def test_a_virtual_environment_sees_no_packages_of_debian(monkeypatch: pytest.MonkeyPatch) -> None:
    line = "the library jinja2 is not there: pip install 'ratest[page]'"
    assert told(monkeypatch, "jinja2", "/home/teacher/ratest") == line


def test_each_extra_is_one_of_the_wheel() -> None:
    import tomllib

    from products import TOP

    with open(TOP / "python/pyproject.toml", "rb") as file:
        extras = tomllib.load(file)["project"]["optional-dependencies"]
    # What pip calls a module's package, where that has another name.
    packages = {"markdown_it": "markdown-it-py", "yaml": "pyyaml"}
    for name, extra in EXTRAS.items():
        assert any(one.startswith(packages.get(name, name)) for one in extras[extra])


def test_another_line_of_sqlglot_is_refused(monkeypatch: pytest.MonkeyPatch) -> None:
    other = ModuleType("sqlglot")
    other.__dict__["__version__"] = "25.1.0"
    monkeypatch.setitem(sys.modules, "sqlglot", other)
    with pytest.raises(Missing, match="version 25.1.0, and 10.6 is wanted: "):
        library("sqlglot", "python3-sqlglot")
