"""A class with odd names and texts and every kind of grade, what a program prints of it that stands
for `ratest`, and what its page has to show."""
from __future__ import annotations

import hashlib
import json
from pathlib import Path

TABLE = 'odd "t" <u>: x'
ANSWER = """o'neil & "<b>\""""
QUERY = (
    "SELECT '<script>alert(1)</script>' AS x -- \"quoted\" & 'single' </pre>\r\n\r\x01\tFROM t\n"
)
REFERENCE = "SELECT a FROM t WHERE a < 1 AND b > '&lt;'\n"
WITNESS = f"""witness: 4
{TABLE} 1: '</td><script>', 'it''s, "so"', 5
{TABLE} 12: 'two
lines
only query 1: 3
', NULL, -5
t 3: 'NULL', 'ends ', NULL
t 4: '12', '', NULL
only query 1: 1
  '&amp;', '<b>'
only query 2: 2
  NULL, ''
  '
  x, y''', '-7'
both: 1
  'a
both: 0', 'plain'
"""
BROAD = [f"column_{number}" for number in range(1, 41)]
BROAD_ROW = ", ".join(f"'{name}'" for name in BROAD)
# What has to stand in the page's tables, by their captions.
TABLES = {
    f"Kept rows: {TABLE}": [
        ["row", "a<b", 'c & "d"\nsecond line', "n"],
        ["1", "</td><script>", 'it\'s, "so"', "5"],
        ["12", "'two\nlines\nonly query 1: 3\n'", "NULL", "-5"],
    ],
    "Kept rows: t": [
        ["row", "first", "second", "third"],
        ["3", "'NULL'", "'ends '", "NULL"],
        ["4", "'12'", "''", "NULL"],
    ],
    "Answers on these rows: Reference: 2 rows": [
        ["only here", "&amp;", "<b>"],
        ["in both", "a\nboth: 0", "plain"],
    ],
    "Answers on these rows: Answer: 3 rows": [
        ["only here", "NULL", "''"],
        ["only here", "'\n  x, y'''", "'-7'"],
        ["in both", "a\nboth: 0", "plain"],
    ],
    "Best rows so far: t": [["row", "first", "second", "third"], ["9", "a", "b", "1"]],
    "Kept rows: broad": [["row", *BROAD], ["1", *BROAD]],
    "Answers on these rows: Reference: 0 rows": [["no rows"]],
    "Answers on these rows: Answer: 1 row": [["only here", *BROAD]],
}
PRINTED = {
    ANSWER: (WITNESS, "", 1),
    "broad": (
        (
            f"witness: 1\nbroad 1: {BROAD_ROW}\nonly query 1: 0\nonly query 2: 1\n "
            f" {BROAD_ROW}\nboth: 0\n"
        ),
        "",
        1,
    ),
    "10 agrees": ("agree\n", "", 0),
    "9 spent": ("undecided: 7 conflicts\nbest so far: 1\nt 9: 'a', 'b', 1\n", "", 4),
    "none": ("undecided: 7 conflicts\n", "", 4),
    "refused": ("", "ratest: query 2: unknown column: a\nb<i>\n", 3),
    "shapes": ("", "ratest: queries: numbers of columns differ\n", 3),
    "work": ("", "ratest: limit: work 662 is above 9\n", 5),
    "cut": ("witness: 2\nt 1: '<u>', 'b', 1\n", "", 1),
    "longer": (
        "witness: 1\nt 1: 'a', 'b', 1\nonly query 1: 0\nonly query 2: 0\nboth: 1\n  1\n  1\n",
        "",
        1,
    ),
    "wide": (
        "witness: 1\nt 1: 'a', 'b', 1, 4\nonly query 1: 0\nonly query 2: 1\n  1\nboth: 0\n",
        "",
        1,
    ),
    "memory": ("", "", 7),
    "killed": ("", "", -9),
    "right": ("agree\n", "", 0),
}
SUMMARY = "15 answers: 2 agree, 4 differ, 1 is not read, 8 have no verdict"
KINDS = {
    ANSWER: "differs on 4 rows",
    "9 spent": "differs on 1 row, perhaps on fewer rows",
    "10 agrees": "agrees",
    "broad": "differs on 1 row",
    "cut": "no verdict",
    "killed": "no verdict",
    "longer": "no verdict",
    "memory": "no verdict: passes the limit of memory",
    "none": "no verdict: 7 conflicts were not enough",
    "refused": "not read: unknown column: a\nb<i>",
    "right": "agrees",
    "shapes": "differs: other columns",
    "wide": "no verdict",
    "work": "no verdict: passes a limit: work 662 is above 9",
    "unprinted": "no verdict",
}
SCHEMA = f"""CREATE TABLE "{TABLE.replace('"', '""')}" ("a<b" TEXT, "c & ""d""
second line" TEXT, n INTEGER);
CREATE TABLE t (first TEXT, second TEXT, third INTEGER);
CREATE TABLE broad ({', '.join(f'{name} TEXT' for name in BROAD)});
"""
# Prints what it has for the text of the answer, and ends with its status.
PROGRAM = """#!/usr/bin/python3
import hashlib, json, os, sys
text = open(sys.argv[4], "rb").read()
out, err, status = json.load(open({folder!r} + "/printed.json")).get(hashlib.sha256(text).hexdigest(), ["agree\\n", "", 0])
sys.stdout.write(out)
sys.stderr.write(err)
sys.stdout.flush()
if status < 0:
    os.kill(os.getpid(), -status)
sys.exit(status)
"""


def make(folder: Path) -> Path:
    """Writes the exercise into a folder, and gives the program that stands for `ratest` beside
    it."""
    answers = folder / "answers"
    answers.mkdir(parents=True)
    (folder / "schema.sql").write_text(SCHEMA)
    for name in (TABLE, "t", "broad"):
        (folder / f"{name}.csv").write_text("")
    (folder / "reference.sql").write_bytes(REFERENCE.encode())
    printed = {}
    for name, told in {**PRINTED, "unprinted": ("", "", 6)}.items():
        text = f"{QUERY}-- {name}\n".encode()
        (answers / f"{name}.sql").write_bytes(text)
        printed[hashlib.sha256(text).hexdigest()] = told
    (folder.parent / "printed.json").write_text(json.dumps(printed))
    program = folder.parent / "stands for ratest"
    program.write_text(PROGRAM.replace("{folder!r}", repr(str(folder.parent))))
    program.chmod(0o755)
    return program
