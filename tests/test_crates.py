"""The style of the crates: heads of modules, who sees a function, lemmas that are named, pages."""
from __future__ import annotations

import re
from collections import Counter, defaultdict
from collections.abc import Iterator
from pathlib import Path

import pytest

CRATES = Path(__file__).resolve().parent.parent / "crates"
NAMES = sorted(
    lib.parent.parent.name for name in ("lib.rt", "main.rt") for lib in CRATES.glob(f"*/src/{name}")
)

ITEM = re.compile(r"^(pub(?:\(crate\))?) (?:unsafe )?(?:fn|const) (\w+)", re.MULTILINE)
HEAD = re.compile(r"\A(//!.*\n)+\n")
LEMMA = re.compile(r"^(?:pub )?([^\s(){}\[\];,.:]+) :(?= |$)")
WORD = re.compile(r"[^\s(){}\[\],;.:]+")


def modules(crate: str) -> list[Path]:
    return sorted((CRATES / crate / "src").glob("**/*.rt"))


@pytest.mark.parametrize("crate", NAMES)
def test_each_module_has_a_head(crate: str) -> None:
    assert [
        path.name for path in modules(crate) if not HEAD.match(path.read_text(encoding="utf-8"))
    ] == []


@pytest.mark.parametrize(
    "crate", [name for name in NAMES if (CRATES / name / "src/lib.rt").is_file()]
)
def test_a_function_is_pub_where_the_crate_hands_it_on(crate: str) -> None:
    root = (CRATES / crate / "src/lib.rt").read_text(encoding="utf-8")
    open_modules = set(re.findall(r"^pub mod (\w+);", root, re.MULTILINE))
    handed_on = {
        name
        for use in re.findall(r"^pub use ([^;]+);", root, re.MULTILINE)
        for name in re.findall(r"\w+", use)
    }
    assert [
        (path.name, name)
        for path in modules(crate)
        if path.name != "lib.rt" and path.stem not in open_modules
        for seen, name in ITEM.findall(path.read_text(encoding="utf-8"))
        if (seen == "pub") != (name in handed_on)
    ] == []


def words_of(lines: list[str]) -> Counter[str]:
    """How often each word stands in these lines outside of comments."""
    return Counter(
        word
        for line in lines
        if not line.lstrip().startswith(("--", "//"))
        for word in WORD.findall(line.split(" -- ")[0])
    )


def lemmas_of(lines: list[str]) -> Iterator[tuple[str, list[str]]]:
    """The lemmas at the top of a file, each with its lines: those up to the next text at the margin that is none of its clauses."""
    for start, name in [
        (at, found[1]) for at, line in enumerate(lines) if (found := LEMMA.match(line))
    ]:
        end = start + 1
        while end < len(lines) and (
            lines[end][:1] in ("", " ", "}", ")", "]") or lines[end].split(" ")[0] == name
        ):
            end += 1
        yield name, lines[start:end]


def proofs_named(crate: str, path: Path, text: str) -> set[tuple[str, str]]:
    """The files of lemmas, each by its crate and name, that a file names."""
    if path.suffix == ".antt":
        return set(re.findall(r"\bRattle\.(\w+)\.proofs\.(\w+)", text))
    return {(crate, module) for module in re.findall(r"\bproofs(?:::|\.)(\w+)", text)}


def unnamed_lemmas(crates: Path) -> list[str]:
    """The lemmas of the files in `proofs` that neither their own file names nor one that names the file."""
    counts: dict[Path, Counter[str]] = {}
    callers: dict[tuple[str, str], set[Path]] = defaultdict(set)
    for path in [
        it
        for folder in ("proofs", "specs", "src")
        for it in crates.glob(f"*/{folder}/**/*.*t")
        if it.suffix in (".antt", ".rt")
    ]:
        text = path.read_text(encoding="utf-8")
        counts[path] = words_of(text.splitlines())
        for module in proofs_named(path.relative_to(crates).parts[0], path, text):
            callers[module].add(path)
    found = []
    for path in sorted(crates.glob("*/proofs/*.antt")):
        crate, others = path.parent.parent.name, callers[path.parent.parent.name, path.stem] - {
            path
        }
        for name, lines in lemmas_of(path.read_text(encoding="utf-8").splitlines()):
            if counts[path][name] == words_of(lines)[name] and not any(
                counts[it][name] for it in others
            ):
                found.append(f"{crate}/{path.stem}: {name}")
    return found


def test_each_lemma_is_named() -> None:
    """The prover takes no lemma by itself: one that nothing names proves nothing."""
    assert unnamed_lemmas(CRATES) == []


def test_a_lemma_that_only_a_namesake_names_is_found(tmp_path: Path) -> None:
    proofs = tmp_path / "crates/rt_one/proofs"
    (proofs / "f/g").mkdir(parents=True)
    (proofs / "Lib.antt").write_text("mod First\nmod Second\n")
    (proofs / "First.antt").write_text(
        "-- used is used\npub used : A\nused = other where\n  lone : B\n  lone = b\n\nother : A\nother = a\n"
    )
    (proofs / "Second.antt").write_text(
        "pub used : A\nused = a\n\n-- lone is not\nlone : A\nlone = lone\n"
    )
    (proofs / "f/g/Answers.antt").write_text(
        "use Rattle.rt_one.proofs.First.{used}\npub returns = used\n"
    )
    assert unnamed_lemmas(tmp_path / "crates") == ["rt_one/Second: used", "rt_one/Second: lone"]


@pytest.mark.parametrize(
    "crate", [name for name in NAMES if (CRATES / name / "README.md").is_file()]
)
def test_the_page_of_a_crate_has_each_file_of_definitions(crate: str) -> None:
    text = (CRATES / crate / "README.md").read_text(encoding="utf-8")
    rows = re.findall(r"^\| ([A-Z][^|`]*) \|", text, re.MULTILINE)
    files = {path.stem for path in (CRATES / crate / "specs").glob("*.antt")} - {"Lib"}
    assert {name for row in rows for name in row.split(", ")} == files
    links = re.findall(r"\]\(([^)]*)\)", text)
    assert links and all((CRATES / crate / link).is_file() for link in links)
