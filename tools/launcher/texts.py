"""What --help and --version print, and what is printed where there are no words."""
from __future__ import annotations

import os
import subprocess

from launcher import toolchain
from launcher.sources import Program

SECONDS = 10
OTHER = {"ratest": "ratest_plus", "ratest_plus": "ratest"}


def read(*path: str) -> str:
    with open(os.path.join(*path), encoding="utf-8") as file:
        return file.read()


def manual(top: str, name: str) -> str:
    """What --help prints of the program itself, of which its manual page is made too."""
    return read(top, "tools", "manual", f"{name}.txt")


def usage(top: str, name: str) -> str:
    """The forms of the program's commands."""
    return manual(top, name).split("\n\n")[0] + "\n"


def help_text(top: str, name: str) -> str:
    """The text of --help but for its end, which says where the documents are."""
    other = usage(top, OTHER[name])
    for word in ("Usage: ", "  or:  "):
        other = other.replace(word, "  ")
    return manual(top, name) + f"\nThe program beside it:\n{other}"


def launcher_help(top: str, name: str) -> str:
    """The text of --help in the repository."""
    return "\n".join(
        [
            help_text(top, name),
            read(top, "tools", "manual", "launcher.txt").replace("NAME", name),
            f"Documents:\n  {top}: README.md and docs, above all docs/TEACHING.md\n",
        ]
    )


def commit(top: str) -> str:
    """The commit that the repository stands at."""

    def git(*words: str) -> str:
        ran = subprocess.run(
            ["git", "--no-optional-locks", "-C", top, *words],
            stdin=subprocess.DEVNULL,
            capture_output=True,
            text=True,
            timeout=SECONDS,
            check=True,
        )
        return ran.stdout.strip()

    if not os.path.exists(os.path.join(top, ".git")):
        return "not known, this folder being no git repository"
    try:
        changes = git("status", "--porcelain", "--untracked-files=no")
        return git("rev-parse", "HEAD") + (
            ", with changes that are not committed" if changes else ""
        )
    except (OSError, subprocess.SubprocessError):
        return "not known, since git does not tell it"


def version_text(top: str, name: str, build: str) -> str:
    return (
        f"{name} {read(top, 'VERSION').strip()}\n"
        f"commit: {commit(top)}\n"
        f"build: {build}\n"
        f"toolchain: {toolchain.wanted(top)}\n"
    )


def version(program: Program) -> str:
    """The text of --version in the repository."""
    if program.is_built(program.proved):
        build = "proved"
    else:
        build = f"not proved here: {program.called} --build proves and builds the program"
    text = version_text(program.top, program.name, build)
    here = toolchain.found()
    if here is None:
        text += "toolchain here: none, since there is no command rt on the PATH\n"
    elif here != toolchain.wanted(program.top):
        text += f"toolchain here: {here}\n"
    return text


def packed(top: str, name: str) -> dict[str, str]:
    """The texts that stand beside an installed program, for the front that prints them."""
    return {
        "usage": usage(top, name),
        "help": help_text(top, name),
        "version": version_text(top, name, "proved"),
    }
