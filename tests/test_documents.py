"""The documents: their links lead somewhere, the files that they name are there, and what they
count is so."""
from __future__ import annotations

import os
import re
import shlex
import subprocess
from dataclasses import dataclass
from functools import cache
from collections.abc import Iterable
from pathlib import Path

import pytest
from compare.steps import Step, clause, follows

TOP = Path(__file__).resolve().parent.parent
DOCUMENTS = sorted(
    [
        TOP / "README.md",
        TOP / "CONTRIBUTING.md",
        TOP / "CHANGELOG.md",
        TOP / "tests/README.md",
        *(TOP / f"{name}/README.md" for name in ("crates", "python", "examples", "mutants")),
        *(TOP / "docs").glob("*.md"),
    ]
)
NAMES = [str(it.relative_to(TOP)) for it in DOCUMENTS]

BLOCK = re.compile(r"^```.*?^```\s*?$", re.DOTALL | re.MULTILINE)
QUOTED = re.compile(r"`([^`\n]+)`")
LINK = re.compile(r"\[[^\]]*\]\(([^)\s]+)\)")
HEADING = re.compile(r"^#+ (.*)$", re.MULTILINE)
# A path of the repository: its first folder is one of the top's, and no part of it is a
# placeholder.
PATH = re.compile(r"[A-Za-z0-9_.][A-Za-z0-9_./-]*/[A-Za-z0-9_./-]*")
# What is made by a call and so is no file of the repository.
MADE = ("results", "out", "asked.db")
MOST_WORDS = 1300


@cache
def text_of(path: Path) -> str:
    """A document without its blocks of code."""
    return BLOCK.sub("", path.read_text(encoding="utf-8"))


def anchors(path: Path) -> set[str]:
    """The anchors of a document's headings, as GitHub makes them."""
    found: set[str] = set()
    for heading in HEADING.findall(text_of(path)):
        slug = re.sub(r"[^\w\- ]", "", heading.lower()).replace(" ", "-")
        count = sum(re.fullmatch(rf"{re.escape(slug)}(-\d+)?", it) is not None for it in found)
        found.add(f"{slug}-{count}" if count else slug)
    return found


def links(path: Path) -> list[str]:
    """The links of a document that stay in the repository."""
    return [it for it in LINK.findall(text_of(path)) if not re.match(r"[a-z]+:", it)]


def top_folders() -> set[str]:
    return {it.name for it in TOP.iterdir() if it.is_dir() and not it.name.startswith(".")}


def named_paths(path: Path) -> list[str]:
    """What a document names in backquotes and looks like a path of the repository."""
    found = []
    for words in QUOTED.findall(text_of(path)):
        for word in words.split():
            word = word.removeprefix("./").rstrip(".,:;")
            parts = word.split("/")
            if PATH.fullmatch(word) and parts[0] in top_folders() and not set(parts) & set(MADE):
                found.append(word)
    return found


@pytest.mark.parametrize("name", NAMES)
def test_links_of_the_documents_lead_somewhere(name: str) -> None:
    path = TOP / name
    for link in links(path):
        file, _, anchor = link.partition("#")
        target = (path.parent / file).resolve() if file else path
        assert target.exists(), f"{name}: {link}"
        if anchor:
            assert target.suffix == ".md" and anchor in anchors(
                target
            ), f"{name}: {link}: {sorted(anchors(target))}"


@pytest.mark.parametrize("name", NAMES)
def test_paths_that_the_documents_name_are_there(name: str) -> None:
    path = TOP / name
    for word in named_paths(path):
        # A placeholder in capitals, as CRATE or NAME, may be any one that is there.
        pattern = re.sub(r"(?<![A-Za-z])(CRATE|NAME|TASK|ANSWER)(?![A-Za-z])", "*", word)
        assert list(TOP.glob(pattern.rstrip("/"))), f"{name}: {word}"


def test_readme_is_read_in_two_minutes() -> None:
    """Words as `wc -w` counts them."""
    assert len((TOP / "README.md").read_text(encoding="utf-8").split()) <= MOST_WORDS


def test_readme_names_every_document() -> None:
    linked = {(TOP / link.partition("#")[0]).resolve() for link in links(TOP / "README.md")}
    missing = [
        name
        for name, path in zip(NAMES, DOCUMENTS)
        if path not in linked and name.startswith(("docs/", "CONTRIBUTING", "tests/"))
    ]
    assert not missing


def statuses(text: str) -> set[str]:
    return set(re.findall(r"^\| (\d+|128 \+ N)(?: \||,)", text, re.MULTILINE))


def test_statuses_of_the_reference_are_those_of_the_manual_pages() -> None:
    told = set()
    for name in ("ratest", "ratest_plus"):
        page = (TOP / "tools/manual" / f"{name}.txt").read_text(encoding="utf-8")
        told |= set(
            re.findall(
                r"^  (\d+)  ", page.split("Exit status:")[1].split("Examples:")[0], re.MULTILINE
            )
        )
    launcher = re.sub(r"\s+", " ", (TOP / "tools/manual/launcher.txt").read_text(encoding="utf-8"))
    own = launcher.split("Statuses of its own:")[1]
    told |= set(re.findall(r"\b\d\d\b|128 \+ N", own))
    section = (
        (TOP / "docs/REFERENCE.md")
        .read_text(encoding="utf-8")
        .split("\n## Exit statuses")[1]
        .split("\n## ")[0]
    )
    assert told and statuses(section) == told


def lines_of_crates() -> list[str]:
    """The lines of crates.txt that name a crate."""
    lines = (TOP / "crates.txt").read_text(encoding="utf-8").splitlines()
    return [line for line in lines if line.strip() and not line.startswith("#")]


def crates() -> list[str]:
    return [line.partition(":")[0].split()[0] for line in lines_of_crates()]


@pytest.mark.parametrize("document", ["docs/GUARANTEES.md", "docs/ARCHITECTURE.md"])
def test_every_crate_is_accounted_for(document: str) -> None:
    text = (TOP / document).read_text(encoding="utf-8")
    assert not [crate for crate in crates() if not re.search(rf"\b{crate}\b", text)]


def test_limits_of_the_reference_are_those_of_the_definitions() -> None:
    text = (TOP / "docs/REFERENCE.md").read_text(encoding="utf-8")
    limits = (text.split("\n## Limits")[1].split("\n## ")[0],)
    for file, name in (
        ("rt_io/specs/Ranges", "most_work"),
        ("rt_io/specs/Ranges", "most_conflicts"),
        ("rt_io/specs/Command", "work_by_default"),
    ):
        found = re.search(
            rf"^{name} = (\d+)$",
            (TOP / f"crates/{file}.antt").read_text(encoding="utf-8"),
            re.MULTILINE,
        )
        assert found and f"{int(found[1]):,}" in limits[0], name
    held = (TOP / "crates/rt_input/specs/Held.antt").read_text(encoding="utf-8")
    assert f"most_bytes = {4 << 20}\n" in held and "4 MiB a file" in limits[0]
    meaning = (TOP / "crates/rt_ddl/specs/Meaning.antt").read_text(encoding="utf-8")
    assert "\nmost = 64\n" in meaning and "64 tables, 64 columns and 64 rules a table" in limits[0]
    given = (TOP / "crates/rt_schema/specs/Given.antt").read_text(encoding="utf-8")
    assert re.search(r"\b2000\b", given) and "2,000 rows" in limits[0]


def defines(file: Path, name: str) -> bool:
    """Whether a file of specs/ has a definition of this name, or one of its types or fields has
    it."""
    if not file.exists():
        return False
    pattern = rf"^(?:abbrev |unfoldable )?(?:pub )?(?:record |data )?{re.escape(name)}\b"
    return bool(re.search(pattern, file.read_text(encoding="utf-8"), re.MULTILINE))


def test_definitions_of_the_headline_are_where_the_links_lead() -> None:
    text = (TOP / "docs/GUARANTEES.md").read_text(encoding="utf-8")
    text = text.split("\n## The calls and their definitions")[1].split("\n## ")[0]
    found = re.findall(r"\[`(\w+)`\]\(\.\./(crates/[^)]*\.antt)\)", text)
    assert len(found) >= 6
    for name, file in found:
        assert defines(TOP / file, name), (name, file)
    for call in set(re.findall(r"`(rt_\w+)::(\w+)`", text)):
        sources = "".join(
            it.read_text(encoding="utf-8")
            for it in (TOP / "crates" / call[0] / "src").rglob("*.rt")
        )
        assert re.search(rf"^\s*pub fn {call[1]}\b", sources, re.MULTILINE), call


@dataclass(frozen=True)
class Row:
    """A row of a table of DEFINITIONS.md: its names, and the files in which they may be."""

    names: tuple[str, ...]
    files: tuple[Path, ...]


def rows_of_definitions() -> list[Row]:
    found: list[Row] = []
    of_section: list[str] = []
    for line in (TOP / "docs/DEFINITIONS.md").read_text(encoding="utf-8").splitlines():
        if line.startswith("## "):
            of_section = re.findall(r"rt_\w+", line)
        cells = [it.strip() for it in re.split(r"(?<!\\)\|", line)[1:-1]]
        if len(cells) < 3 or cells[0] in ("Name", "---") or set(cells[0]) <= {"-"}:
            continue
        names = tuple(it for it in re.findall(r"`(\w+)`", cells[0]) if it)
        linked = re.findall(r"\]\(\.\./([^)]*)\)", cells[1])
        crate, _, files = cells[1].rpartition(": ")
        among = [crate] if crate else of_section
        paths = [TOP / it for it in linked] or [
            TOP / "crates" / it / "specs" / f"{file.strip()}.antt"
            for it in among
            for file in files.split(",")
        ]
        found.append(Row(names, tuple(paths)))
    return found


def test_definitions_are_where_the_page_says() -> None:
    rows = rows_of_definitions()
    assert len(rows) > 150
    lost = [
        (name, row.files)
        for row in rows
        for name in row.names
        if not any("src" in it.parts for it in row.files)
        and not any(defines(it, name) for it in row.files)
    ]
    assert not lost
    # Each file of specs/ that a row names is in one of the crates that the row or its section names.
    assert not [
        (row.names, name)
        for row in rows
        for name in {it.name for it in row.files if "src" not in it.parts}
        if not any(it.is_file() for it in row.files if it.name == name)
    ]


def clauses_of_public_functions(crate: str) -> list[tuple[dict[str, str], str]]:
    """Of each public function of a crate: the definitions that its file uses, and the text of its
    clauses."""
    sources = TOP / "crates" / crate / "src"
    if not (sources / "lib.rt").exists():
        return []
    lib = (sources / "lib.rt").read_text(encoding="utf-8")
    public = set(
        re.findall(r"\w+", " ".join(re.findall(r"^pub (?:use|mod) ([^;]*);", lib, re.MULTILINE)))
    )
    found = []
    for file in sorted(sources.rglob("*.rt")):
        text = file.read_text(encoding="utf-8")
        used = {
            name.split(" as ")[-1].strip(): name.split(" as ")[0].strip()
            for module, names in re.findall(
                r"ghost use Rattle\.rt_\w+\.specs\.([\w.]+)\.\{([^}]*)\}", text
            )
            if not module.startswith("declared")
            for name in names.split(",")
            if name.strip()
        }
        has_type, has_trait = (
            bool(public & set(re.findall(rf"^pub (?:{kind}) (\w+)", text, re.MULTILINE)))
            for kind in ("struct|enum|trait", "trait")
        )
        for indent, said, name, clauses in re.findall(
            r"^( *)(pub )?fn (\w+)(.*?)(?:^\1\{|;$)", text, re.DOTALL | re.MULTILINE
        ):
            if (has_trait or said and has_type) if indent else said and name in public:
                found.append((used, re.sub(r"//.*", "", clauses)))
    return found


def test_every_definition_that_a_public_clause_cites_is_on_the_page() -> None:
    page = (TOP / "docs/DEFINITIONS.md").read_text(encoding="utf-8")
    named = {
        name for quoted in re.findall(r"`([^`]+)`", page) for name in re.findall(r"\w+", quoted)
    }
    cited = {
        used[word]
        for crate in crates()
        if not crate.endswith("_cases")
        for used, clauses in clauses_of_public_functions(crate)
        for word in re.findall(r"[A-Za-z_]\w*", clauses)
        if word in used
    }
    assert len(cited) > 280 and not sorted(cited - named)


def entries_of_decisions() -> list[str]:
    return re.findall(
        r"^\d+\. .*$", (TOP / "docs/DECISIONS.md").read_text(encoding="utf-8"), re.MULTILINE
    )


def test_decisions_are_numbered_and_at_most_five_lines() -> None:
    entries = entries_of_decisions()
    numbers = [int(it.split(".")[0]) for it in entries]
    assert numbers == sorted(set(numbers))
    assert not [it for it in entries if len(it) > 5 * 110]
    assert all(re.match(r"\d+\. \*\*.*\?\*\* ", it) for it in entries)


def test_tests_that_the_decisions_name_are_there() -> None:
    table = (
        (TOP / "docs/DECISIONS.md").read_text(encoding="utf-8").split("## Bugs that tests show")[1]
    )
    names = re.findall(r"`(\w+)`", table)
    sources = "".join(
        it.read_text(encoding="utf-8") for it in (TOP / "crates").glob("rt_*_cases/src/**/*.rt")
    )
    assert len(names) > 40 and not [
        name for name in names if not re.search(rf"\bfn {name}\b", sources)
    ]


def refusals() -> list[tuple[str, str, str | None]]:
    """The tables of refused queries: what is written, what is printed, and what is to be written
    instead."""
    section = (
        (TOP / "docs/SQL.md")
        .read_text(encoding="utf-8")
        .split("\n## What to write instead\n")[1]
        .split("\n## ")[0]
    )
    found = []
    for line in section.splitlines():
        cells = [QUOTED.findall(cell) for cell in line.split(" | ")]
        if line.startswith("| `"):
            instead = [it for it in cells[2] if it.startswith("SELECT")]
            found.append(
                (cells[0][0].replace("\\|", "|"), cells[1][0], instead[0] if instead else None)
            )
    return found


def test_refused_queries_are_refused_so(ratest: Path, tmp_path: Path) -> None:
    beers = TOP / "examples/beers"
    answer = tmp_path / "answer.sql"
    rows = refusals()
    assert len(rows) > 15
    for written, said, instead in rows:
        answer.write_text(written)
        words = [ratest, beers / "schema.sql", beers, beers / "3/reference.sql", answer]
        ran = subprocess.run(words, capture_output=True, text=True, check=False)
        assert (ran.returncode, ran.stdout) == (3, "") and re.fullmatch(
            rf"ratest: (query 2|queries): {re.escape(said)}\n", ran.stderr
        ), (written, ran.stderr)
        if instead:
            answer.write_text(instead)
            ran = subprocess.run(words, capture_output=True, text=True, check=False)
            assert ran.returncode in (0, 1), (instead, ran.stderr)


def test_commands_of_the_algebra_page(ratest_plus: Path, tmp_path: Path) -> None:
    (tmp_path / "examples").symlink_to(TOP / "examples")
    (tmp_path / "ratest_plus").symlink_to(ratest_plus)
    blocks = re.findall(
        r"^```\n(\$ .*?)^```",
        (TOP / "docs/ALGEBRA.md").read_text(encoding="utf-8"),
        re.DOTALL | re.MULTILINE,
    )
    typed = [
        it
        for block in blocks
        for it in re.findall(r"^\$ ([^\n]*)\n((?:(?!\$ )[^\n]*\n)*)", block, re.MULTILINE)
    ]
    assert typed
    for command, printed in typed:
        ran = subprocess.run(
            shlex.split(command), cwd=tmp_path, capture_output=True, text=True, check=False
        )
        assert ran.stdout == printed, command


def test_worked_conflict_of_the_architecture_follows() -> None:
    """The learned clause follows along the hints in their order, and along no fewer of them."""
    text = (TOP / "docs/ARCHITECTURE.md").read_text(encoding="utf-8").split("### One conflict")[1]
    lines = [clause(it) for it in re.findall(r"line \d: ((?:[+-]\d ?)+)", text)]
    learned = re.search(r"the learned clause is `([^`]*)`\. Lines (\d), (\d) and (\d)", text)
    assert learned and len(lines) == 4
    hints = tuple(int(it) for it in learned.groups()[1:])
    assert follows(Step(clause(learned[1]), hints), lines)
    assert not any(
        follows(Step(clause(learned[1]), hints[:at] + hints[at + 1 :]), lines) for at in range(3)
    )


def table_rows(document: str, first: str) -> list[list[str]]:
    """The cells of the rows of a document's tables whose first cell begins so."""
    rows = (TOP / document).read_text(encoding="utf-8").splitlines()
    return [
        [cell.strip() for cell in row.strip("|").split("|")]
        for row in rows
        if row.startswith(f"| {first}")
    ]


@pytest.mark.parametrize("students", [100, 200, 400])
def test_counts_of_searches_are_those_of_measure(students: int) -> None:
    """Nodes, clauses and conflicts are the same on each machine."""
    measure = Path(os.environ.get("MEASURE") or TOP / "crates/measure/out/measure")
    if not os.access(measure, os.X_OK):
        pytest.skip("measure is not proved and built")
    ran = subprocess.run(
        [measure, "made", str(students)], capture_output=True, text=True, check=True
    )
    counted = dict(re.findall(r"^(\w+) (\d+)$", ran.stdout, re.MULTILINE))
    row = table_rows("docs/PERFORMANCE.md", f"`made {students}` |")[0]
    assert [it.replace(",", "") for it in row[2:5]] == [
        counted[it] for it in ("nodes", "clauses", "conflicts")
    ]


@pytest.mark.parametrize("students", [20, 400])
def test_sizes_of_certificates_are_those_that_are_written(students: int, ratest_plus: Path) -> None:
    ran = subprocess.run(
        [ratest_plus, "prove", "made", str(students)], capture_output=True, text=True, check=True
    )
    row = table_rows("docs/PERFORMANCE.md", f"`made {students}` |")[-1]
    assert [it.replace(",", "") for it in row[1:3]] == [
        str(len(ran.stdout)),
        str(ran.stdout.count("\nd ")),
    ]


def test_crates_that_the_documents_name_are_there() -> None:
    known = {it.name for it in (TOP / "crates").iterdir()}
    for path in DOCUMENTS:
        named = {
            it
            for words in QUOTED.findall(text_of(path))
            for it in re.findall(r"^(rt_[a-z_]+)(?:::\w+)?$", words)
        }
        assert named <= known, (path, named - known)


def needed(crate: str) -> set[str]:
    """A crate and those below it."""
    below = dict(line.split(":") for line in lines_of_crates())
    found: set[str] = set()
    left = [crate]
    while left:
        name = left.pop()
        if name in below and name not in found:
            found.add(name)
            left += below[name].split()
    return found


def test_crates_of_a_build_are_counted() -> None:
    assert f"with the {len(needed('ratest'))} crates that the program needs" in (
        TOP / "docs/PERFORMANCE.md"
    ).read_text(encoding="utf-8")


def test_readme_has_every_command() -> None:
    text = (TOP / "README.md").read_text(encoding="utf-8").split("## Commands")[1].split("\n## ")[0]
    quoted = {word for words in QUOTED.findall(text) for word in words.split()}
    for name in ("ratest", "ratest_plus"):
        page = (TOP / "tools/manual" / f"{name}.txt").read_text(encoding="utf-8").split("\n\n")[0]
        assert name in quoted and {it for it in re.findall(rf"{name} ([a-z]+)\b", page)} <= quoted
    ran = subprocess.run([TOP / "classroom", "--help"], capture_output=True, text=True, check=True)
    commands = set(re.findall(r"^    ([a-z]+)  ", ran.stdout, re.MULTILINE))
    assert len(commands) > 3 and commands <= quoted


def test_lines_of_the_crates_are_counted() -> None:
    """Within a twentieth, so that not each change of a crate is one of the document."""
    text = (TOP / "docs/ARCHITECTURE.md").read_text(encoding="utf-8")
    told = {
        folder: int(number.replace(",", ""))
        for number, folder in re.findall(r"([\d,]+)(?: lines)? in `(src|specs|proofs)/`", text)
    }
    counted = {
        folder: sum(
            len(file.read_text(encoding="utf-8").splitlines())
            for file in (TOP / "crates").glob(f"*/{folder}/**/*")
            if file.suffix in (".rt", ".antt")
        )
        for folder in ("src", "specs", "proofs")
    }
    assert set(told) == set(counted) and all(
        abs(told[it] - counted[it]) * 20 < counted[it] for it in told
    ), counted


def test_code_that_the_decisions_compare_is_in_the_crates_that_they_name() -> None:
    """Of each row of "Code that looks the same and stays": each function, type or module is in a
    crate that its cell names."""
    section = (
        (TOP / "docs/DECISIONS.md")
        .read_text(encoding="utf-8")
        .split("## Code that looks the same and stays")[1]
        .split("\n## ")[0]
    )
    rows = [
        line.split(" | ")[0]
        for line in section.splitlines()
        if line.startswith("| ") and "`" in line
    ]
    assert len(rows) > 8
    for row in rows:
        named = QUOTED.findall(row)
        among = [it for it in named if it.startswith("rt_")] or crates()
        files = [file for crate in among for file in (TOP / "crates" / crate / "src").rglob("*.rt")]
        sources = "".join(file.read_text(encoding="utf-8") for file in files)
        lost = [
            name
            for name in named
            if not name.startswith("rt_")
            and name not in {file.stem for file in files}
            and not re.search(rf"\b(?:fn|struct|enum|trait) {name.rpartition('::')[2]}\b", sources)
        ]
        assert not lost, row


def test_installation_names_what_the_package_recommends() -> None:
    """Each package of INSTALL's table is one that the Debian package recommends, and the other way
    round; and each extra is one of the wheel."""
    import tomllib

    text = (
        (TOP / "docs/INSTALL.md")
        .read_text(encoding="utf-8")
        .split("## What each command needs")[1]
        .split("\n## ")[0]
    )
    named = {
        word for line in re.findall(r"`apt-get install ([^`]*)`", text) for word in line.split()
    }
    packing = (
        (TOP / "tools/release/packing.py")
        .read_text(encoding="utf-8")
        .split("RECOMMENDED = {")[1]
        .split("\n}")[0]
    )
    recommended = {
        word
        for words in re.findall(r'": \(([^)]*)\)', packing)
        for word in re.findall(r'"([^"]+)"', words)
    }
    assert named == recommended - {"python3-markupsafe"}
    extras = tomllib.loads((TOP / "python/pyproject.toml").read_text(encoding="utf-8"))["project"][
        "optional-dependencies"
    ]
    assert set(re.findall(r"\| `([a-z]+)` \|$", text, re.MULTILINE)) == set(extras)


def counts_of_testing() -> dict[str, int]:
    """What docs/TESTING.md counts, by the words of its tables."""
    sources = [file.read_text(encoding="utf-8") for file in (TOP / "crates").glob("*/src/**/*.rt")]
    tests = {
        file: file.read_text(encoding="utf-8") for file in (TOP / "tests").glob("**/test_*.py")
    }

    def all_of(pattern: str, texts: Iterable[str]) -> int:
        return sum(len(re.findall(pattern, text, re.MULTILINE)) for text in texts)

    found = {
        "functions of the crates, each proved safe and ended": all_of(
            r"^\s*(?:pub(?:\([a-z]+\))? )?fn \w+", sources
        ),
        "clauses of their contracts": all_of(r"^\s*(?:ensures|requires)\b", sources),
        "mutants in the gate": len(list((TOP / "crates").glob("*/must-fail/*.edit"))),
        "mutants outside of it": len(list((TOP / "mutants").glob("*/*.edit"))),
        "tests of the crates": all_of(r"#\[test\]", sources),
        "programs with a stored run": len(list((TOP / "crates").glob("*/stdout"))),
        "tests of the tools": all_of(r"^def test_", tests.values()),
    }
    for folder in ("classroom", "library", "launcher", "install", "web", "hostile"):
        found[f"`{folder}`"] = all_of(
            r"^def test_",
            (text for file, text in tests.items() if (TOP / "tests" / folder) in file.parents),
        )
    return found


def test_kinds_of_tests_are_counted() -> None:
    text = (TOP / "docs/TESTING.md").read_text(encoding="utf-8")
    told = {
        words: int(number.replace(",", ""))
        for words, number in re.findall(r"^\| ([^|]+) \| ([\d,]+) \|", text, re.MULTILINE)
    }
    assert told == counts_of_testing()
    tests = [file.read_text(encoding="utf-8") for file in (TOP / "tests").glob("**/test_*.py")]
    browser = sum(
        len(re.findall(r"^def test_\w+\([^)]*\bbrowser\b", text, re.MULTILINE)) for text in tests
    )
    assert f"In a real browser run {browser} of these tests." in text


def cited(text: str) -> set[Path]:
    """The files of specs/ that a file of the crates uses."""
    found = (
        TOP / "crates" / crate / "specs" / f"{module.replace('.', '/')}.antt"
        for crate, module in re.findall(
            r"use Rattle\.(rt_\w+)\.specs\.([A-Za-z][\w.]*?)(?:\.\{|\s|;| as )", text
        )
        if not module.startswith("declared")
    )
    return {file for file in found if file.is_file()}


def below(files: Iterable[Path]) -> set[Path]:
    """These files of specs/ and all that they rest on."""
    seen: set[Path] = set()
    left = list(files)
    while left:
        file = left.pop()
        if file not in seen:
            seen.add(file)
            left += cited(file.read_text(encoding="utf-8"))
    return seen


def test_files_below_the_dozen_are_counted() -> None:
    section = (
        (TOP / "docs/DEFINITIONS.md")
        .read_text(encoding="utf-8")
        .split("## The headline's dozen")[1]
        .split("\n## ")[0]
    )
    dozen = [
        (TOP / "docs" / link).resolve()
        for link in re.findall(r"\]\((\.\./crates/[^)]*\.antt)\)", section)
    ]
    clauses = cited((TOP / "crates/rt_top/src/top.rt").read_text(encoding="utf-8"))
    assert len(dozen) == 12
    assert (
        f"in {len(below(dozen))} files of `specs/` in all, and the clauses on"
        f" {len(below({*dozen, *clauses}))}:" in section
    )
