"""What stops a command: one line that names it."""
from __future__ import annotations

import importlib
import os
import shutil
import sys
from types import ModuleType


class Fault(Exception):
    """Why a command can't go on, in one line."""


class Missing(Fault):
    """A library that is not there, with the line that installs it."""


def shown(*names: str) -> str:
    """Names in a message, which has one line whatever stands in them."""
    return ", ".join(name if name.isprintable() else ascii(name) for name in map(visible, names))


def visible(name: str) -> str:
    """The name of a file, in which bytes that aren't UTF-8 are written as `\\xNN`."""
    return os.fsencode(name).decode("utf-8", "backslashreplace")


def told(fault: OSError) -> str:
    """A fault of the operating system in one line, with the file where there is one."""
    reason = fault.strerror or str(fault)
    return f"{shown(os.fsdecode(fault.filename))}: {reason}" if fault.filename else reason


# The extra of the wheel that has a library.
EXTRAS = {
    "jinja2": "page",
    "flask": "serve",
    "waitress": "serve",
    "limits": "serve",
    "markdown_it": "serve",
    "yaml": "gradescope",
    "sqlglot": "mutants",
    "psycopg": "postgresql",
}


# The line of a library that is tested, where another one means something else: sqlglot's trees
# differ from line to line.
LINES = {"sqlglot": "10.6"}


def library(name: str, package: str) -> ModuleType:
    """A library that one subcommand needs; where it is missing, or of another line than the one
    that is tested, the line that installs it.

    A virtual environment sees none of Debian's packages, so there pip gets it.
    """
    line = f"apt-get install {package}"
    if sys.prefix != sys.base_prefix and name in EXTRAS:
        line = f"pip install 'ratest[{EXTRAS[name]}]'"
    try:
        found = importlib.import_module(name)
    except ImportError:
        raise Missing(f"the library {name} is not there: {line}") from None
    version, wanted = str(getattr(found, "__version__", "")), LINES.get(name, "")
    if wanted and version and not version.startswith(f"{wanted}."):
        raise Missing(f"the library {name} is of version {version}, and {wanted} is wanted: {line}")
    return found


def tool(name: str, package: str) -> str:
    """The path of a program that one subcommand needs; where it is missing, the line that installs
    it."""
    path = shutil.which(name)
    if path is None:
        raise Fault(f"the program {name} is not there: apt-get install {package}")
    return path
