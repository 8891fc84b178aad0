"""Manual pages, made of what --help prints by help2man."""
from __future__ import annotations

import os
import re
import shutil
import subprocess
import tempfile
from pathlib import Path

SECONDS = 60
WHAT = {
    "ratest": "explain why two SQL queries differ by the fewest rows",
    "ratest_plus": "compare, explain, grade and certify queries by the fewest rows",
    "classroom": "grade a class of SQL answers with ratest",
}
ALSO = """[SEE ALSO]
.BR {other} (1)
.PP
The documents in share/doc/ratest, below the prefix of the installation, above all docs/TEACHING.md.
"""


class Missing(Exception):
    """There is no help2man."""


def manual_page(name: str, help_text: str, version: str, seconds: int) -> bytes:
    """The manual page of the program, dated by `seconds` since 1970."""
    if not shutil.which("help2man"):
        raise Missing(
            "there is no program help2man, which makes the manual pages: apt-get install help2man"
        )
    other = "ratest" if name == "ratest_plus" else "ratest_plus"
    with tempfile.TemporaryDirectory() as folder:
        # help2man asks a program.
        script, text, also = (Path(folder) / it for it in (name, "help", "also"))
        # Its mark of a section of the page.
        text.write_text(
            re.sub(r"^(Arguments|Commands|Exit status):$", r"*\1*", help_text, flags=re.MULTILINE)
        )
        also.write_text(ALSO.format(other=other))
        script.write_text('#!/bin/sh\nexec cat "${0%/*}/help"\n')
        script.chmod(0o755)
        words = [
            "help2man",
            "--no-info",
            "--section=1",
            f"--name={WHAT[name]}",
            f"--version-string={version}",
            "--source=RATest",
            "--manual=User Commands",
            f"--include={also}",
            str(script),
        ]
        ran = subprocess.run(
            words,
            capture_output=True,
            timeout=SECONDS,
            stdin=subprocess.DEVNULL,
            check=True,
            env={**os.environ, "SOURCE_DATE_EPOCH": str(seconds), "LC_ALL": "C.UTF-8", "TZ": "UTC"},
        )
        return ran.stdout
