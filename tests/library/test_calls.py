"""The call itself: frames, and the same answers as those of the programs."""
from __future__ import annotations

import itertools
import os
import random
import struct
import subprocess
import sys
import threading
from collections.abc import Iterator
from pathlib import Path

import pytest

import ratest as package
from ratest import child, library

TOP = Path(__file__).resolve().parents[2]
EXAMPLES = TOP / "examples"
SECONDS = 120
PLUS = ("ra", "row", "grade", "prove", "check")


def pairs(folder: str, suffix: str = ".sql") -> Iterator[list[str]]:
    """Commands on pairs of queries of an example."""
    names = sorted(
        str(path.relative_to(EXAMPLES)) for path in (EXAMPLES / folder).rglob(f"*{suffix}")
    )
    queries = [name for name in names if not name.endswith("schema.sql")]
    for first, second in itertools.product(queries, queries[:4]):
        yield [f"{folder}/schema.sql", folder, first, second]


def commands() -> list[list[str]]:
    beers = [f"beers/{it}" for it in ("schema.sql", "", "3/answers/b.sql", "3/reference.sql")]
    beers[1] = "beers"
    found = [*pairs("beers"), *pairs("numbers")]
    found += [["ra", *words] for words in list(pairs("university", ".ra"))[:30]]
    found += [
        ["row", "'Joe''s'", *beers],
        ["row", "1", *beers],
        ["row", "", *beers],
        ["row"],
        ["prove", *beers],
        ["prove", *beers, "--conflicts=1"],
        ["check", "beers/schema.sql", *beers],
        ["check", "none", *beers],
        ["grade", *beers[:3], "list"],
        ["grade", *beers[:3], "none"],
    ]
    found += [["made", str(number)] for number in (1, 5, 20, 60)]
    found += [
        [],
        ["x"],
        ["made", "0"],
        ["made", "401"],
        ["--work", "3", "made", "5"],
        ["made", "5", "--conflicts"],
        [*beers, "--work=1"],
        ["beers/schema.sql", "none", *beers[2:]],
        ["none", *beers[1:]],
        [*beers[:3], "none"],
        [*beers[:3], "beers"],
        ["--", *beers],
        [*beers[:3], "beers/bar.csv"],
    ]
    return found


@pytest.fixture(scope="module")
def files() -> dict[str, bytes]:
    """All files of the examples, and one list of queries, by their paths there."""
    found = {
        str(path.relative_to(EXAMPLES)): path.read_bytes()
        for path in EXAMPLES.rglob("*")
        if path.is_file()
    }
    found["list"] = b"beers/3/answers/a.sql\n\nbeers/3/answers/c.sql\r\nbeers/bar.csv\n"
    return found


def test_answers_are_those_of_the_programs(
    shared: Path, ratest: Path, ratest_plus: Path, files: dict[str, bytes], tmp_path: Path
) -> None:
    for name, content in files.items():
        (tmp_path / name).parent.mkdir(parents=True, exist_ok=True)
        (tmp_path / name).write_bytes(content)
    seen = set()
    for words in commands():
        program = ratest_plus if words[:1] and words[0] in PLUS else ratest
        ran = subprocess.run(
            [program.absolute(), *words], cwd=tmp_path, capture_output=True, timeout=SECONDS
        )
        said = package.ask(words, files)
        assert said == (ran.returncode, ran.stdout.decode(), ran.stderr.decode()), words
        seen.add(said.status)
    assert seen == set(range(7))


def test_which_frames_are_malformed(shared: Path) -> None:
    whole = library.framed(["made", "1"], {"a": b"x", "b": b""})  # whose queries agree
    assert library.read(library.answered(whole, shared)).status == 0
    number = struct.pack
    malformed = [
        b"",
        *(whole[:cut] for cut in range(len(whole))),
        whole + b"\0",
        number("<I", 1) + whole[4:],
        number("<I", 2**32 - 1) + whole[4:],
        whole[:4] + number("<I", 2**32 - 1) + whole[8:],
        number("<IIIc", 1, 0, 1, b"\xff"),
        number("<IIIc", 1, 0, 2**32 - 1, b"a"),
        number("<IIIcI", 0, 1, 1, b"\xc3", 0),
    ]
    for request in malformed:
        with pytest.raises(ValueError):
            library.answered(request, shared)


def test_random_bytes_are_answered(shared: Path) -> None:
    """No request of any bytes ends the process, and a whole one that was changed is malformed or
    has a status."""
    draw = random.Random(7)
    whole = library.framed(
        ["s", "d", "1", "2"],
        {
            "s": b"CREATE TABLE t (a INT)",
            "d/t.csv": b"a\n1\n",
            "1": b"SELECT a FROM t",
            "2": b"SELECT a FROM t",
        },
    )
    for _ in range(3000):
        request = bytearray(whole)
        for _ in range(draw.randrange(1, 4)):
            request[draw.randrange(len(request))] = draw.choice(
                [0, 1, 2, 10, 39, 44, 255, draw.randrange(256)]
            )
        try:
            assert library.read(library.answered(bytes(request), shared)).status in range(8)
        except ValueError:
            pass


def test_names_are_just_those_of_the_request(shared: Path) -> None:
    schema, query, rows = b"CREATE TABLE t (a INTEGER)", b"SELECT a FROM t", b"a\n1\n"
    files = {"s": schema, "d/t.csv": rows, "1": query, "2": b"SELECT a FROM t WHERE a > 1"}
    assert package.ask(["s", "d", "1", "2"], files).status == 1
    for name in files:
        left = {key: content for key, content in files.items() if key != name}
        told = package.ask(["s", "d", "1", "2"], left)
        assert told.status == 6 and told.err.startswith("ratest: cannot read ")
    # An empty file is there, and a file of the system is not.
    assert package.ask(["s", "d", "1", "2"], {**files, "1": b""}).status == 3
    assert package.ask(["/etc/passwd", "d", "1", "2"], files).status == 6
    # A name that is a command's is written with a folder.
    assert package.ask(["row", "d", "1", "2"], {**files, "row": schema}).status == 2
    assert package.ask(["./row", "d", "1", "2"], {**files, "./row": schema}).status == 1
    # Of two files of one name the first counts.
    twice = library.framed(["s", "d", "1", "2"], files)
    twice = (
        twice[:4] + struct.pack("<I", 5) + twice[8:] + library.field(b"2") + library.field(query)
    )
    assert library.read(library.answered(twice, shared)).status == 1


def test_threads_call_at_once(shared: Path) -> None:
    found: dict[int, object] = {}

    def call(number: int) -> None:
        found[number] = [package.ask(["made", str(number % 5 + 1)], {}) for _ in range(5)]

    threads = [threading.Thread(target=call, args=(number,)) for number in range(12)]
    for thread in threads:
        thread.start()
    for thread in threads:
        thread.join()
    assert all(
        found[number] == [package.ask(["made", str(number % 5 + 1)], {})] * 5
        for number in range(12)
    )


def test_limits_of_a_child_process(shared: Path) -> None:
    small = package.explain(
        "CREATE TABLE t (a INT)",
        {"t": [[1]]},
        "SELECT a FROM t",
        "SELECT a FROM t",
        limits=package.Limits(),
    )
    assert small == package.Agree()
    # A search of several seconds.
    slow = TOP / "bench/inputs/student_1000_3_02_x"
    files = {
        "s": (slow / "schema.sql").read_bytes(),
        "p": (slow / "q1.sql").read_bytes(),
        "q": (slow / "q2.sql").read_bytes(),
    }
    files |= {f"d/{table.name}": table.read_bytes() for table in (slow / "data").iterdir()}
    request = library.framed(["s", "d", "p", "q", "--work", "32000000"], files)
    with pytest.raises(package.Stopped) as stopped:
        child.answered(request, shared, package.Limits(seconds=1))
    assert stopped.value.passed == "time"
    request = library.framed(["made", "400"], {})
    with pytest.raises(package.Stopped) as stopped:
        child.answered(request, shared, package.Limits(megabytes=20))
    assert stopped.value.passed == "memory"
    with pytest.raises(ValueError):
        child.answered(request[:-1], shared, package.Limits())
    with pytest.raises(package.NoLibrary):
        child.answered(request, shared.with_name("none.so"), package.Limits())


NESTS = {
    "parentheses": "'SELECT a FROM t WHERE ' + '(' * n + 'a = 1' + ')' * n",
    "not": "'SELECT a FROM t WHERE ' + 'NOT ' * n + 'a = 1'",
    "exists": "'SELECT a FROM t WHERE EXISTS (' * n + 'SELECT a FROM t' + ')' * n",
    "from": "'SELECT a FROM (' * n + 'SELECT a FROM t' + ') x' * n",
    "sum": "'SELECT ' + '(' * n + 'a' + ' + 1)' * n + ' FROM t'",
    "union": "' UNION '.join(['SELECT a FROM t'] * (n + 1))",
    "and": "'SELECT a FROM t WHERE ' + ' AND '.join(['a < 9'] * (1000 * n))",
}


@pytest.mark.parametrize("kind", NESTS)
def test_the_stack_that_the_header_names(shared: Path, kind: str) -> None:
    """Nests up to the limit, in a thread of 4 MiB. A child runs them, which too small a stack would
    end."""
    code = f"""if True:
        import ratest, threading
        def run():
            for n in [*range(1, 12), *range(50, 130, 3)]:
                answer = ratest.explain("CREATE TABLE t (a INTEGER)", {{"t": [[1]]}}, {NESTS[kind]}, "SELECT a FROM t", conflicts=50)
                kinds.append(str(answer) if isinstance(answer, ratest.Refused) else "read")
        kinds = []
        threading.stack_size(4 << 20)
        thread = threading.Thread(target=run)
        thread.start()
        thread.join()
        print(sorted(set(kinds)))
        """
    ran = subprocess.run(
        [sys.executable, "-c", code],
        capture_output=True,
        text=True,
        timeout=SECONDS,
        env={**os.environ, "PYTHONPATH": str(TOP / "python"), "PYTHONDONTWRITEBYTECODE": "1"},
    )
    assert (ran.returncode, ran.stderr) == (0, "")
    assert ran.stdout == (
        "['read']\n" if kind == "and" else "['query 1: nested too deep', 'read']\n"
    )
