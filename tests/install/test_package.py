"""tools/package: made again byte for byte, quiet under lintian, and run in an empty root."""
from __future__ import annotations

import hashlib
import json
import os
import re
import shlex
import shutil
import subprocess
import tarfile
import time
from pathlib import Path

import pytest

from packed import copy_repository, pack

SECONDS = 120
NO_TOOLCHAIN = {"PATH": "/usr/bin:/bin", "LC_ALL": "C.UTF-8"}
TOOLS_OF_A_ROOT = ("/bin/sh", "/bin/readlink", "/bin/cat")


def only(folder: Path, pattern: str) -> Path:
    found = list(folder.glob(pattern))
    assert len(found) == 1, found
    return found[0]


def test_the_same_bytes_in_another_folder(
    top: Path, packages: Path, ratest: Path, ratest_plus: Path, archive: Path, tmp_path: Path
) -> None:
    mask = os.umask(0o077)
    try:
        other = pack(
            copy_repository(top, tmp_path / "another" / "place", ratest, ratest_plus, archive)
        )
    finally:
        os.umask(mask)
    names = sorted(os.listdir(packages))
    assert names == sorted(os.listdir(other)) and len(names) == 5
    for name in names:
        assert (packages / name).read_bytes() == (other / name).read_bytes(), name


def test_sums_and_build(packages: Path, copy: Path) -> None:
    lines = (packages / "SHA256SUMS").read_text().splitlines()
    assert sorted([*(line.split("  ")[1] for line in lines), "SHA256SUMS"]) == sorted(
        os.listdir(packages)
    )
    for line in lines:
        digest, name = line.split("  ")
        assert hashlib.sha256((packages / name).read_bytes()).hexdigest() == digest
    head = subprocess.run(
        ["git", "rev-parse", "HEAD"], cwd=copy, text=True, capture_output=True
    ).stdout.strip()
    assert (packages / "BUILD").read_text().splitlines()[1:] == [
        f"commit: {head}",
        "build: proved",
        "toolchain: rattle-kit-13f logic dac8208d650f15bf",
    ]


def test_the_archive_works_where_it_is_unpacked(
    packages: Path, tmp_path: Path, ratest: Path, beers: str
) -> None:
    with tarfile.open(only(packages, "*.tar.gz")) as archive:
        assert all(it.uid == it.gid == 0 and it.uname == it.gname == "root" for it in archive)
        archive.extractall(tmp_path)
    top = only(tmp_path, "ratest-*")
    assert (
        top / "lib/ratest/ratest"
    ).read_bytes() == ratest.read_bytes(), "the very program that was proved"
    at = top / "share/doc/ratest/examples/beers"
    ran = subprocess.run(
        [top / "bin/ratest", at / "schema.sql", at, at / "3/reference.sql", at / "3/answers/b.sql"],
        env=NO_TOOLCHAIN,
        text=True,
        capture_output=True,
        timeout=SECONDS,
    )
    assert (ran.returncode, ran.stdout, ran.stderr) == (1, beers, "")


# A call that names the Debian package of a library or a program that one command needs.
NEEDED = re.compile(r'\b(?:library|tool)\("[^"]+", "([^"]+)"\)')


def test_what_each_command_needs_is_recommended(packages: Path, top: Path) -> None:
    named = {
        name
        for path in (top / "python/classroom").rglob("*.py")
        for names in NEEDED.findall(path.read_text())
        for name in names.split()
    }
    needed = {
        name
        for name in named
        if subprocess.run(
            ["dpkg-query", "-W", "-f", "${Essential}", name],
            text=True,
            capture_output=True,
            timeout=SECONDS,
        ).stdout
        != "yes"
    }
    control = subprocess.run(
        ["dpkg-deb", "--field", only(packages, "*.deb"), "Recommends"],
        text=True,
        capture_output=True,
        check=True,
        timeout=SECONDS,
    ).stdout
    assert len(needed) >= 5 and needed <= set(control.strip().split(", "))


def test_lintian_is_quiet(packages: Path) -> None:
    if not shutil.which("lintian"):
        pytest.skip("there is no program lintian")
    ran = subprocess.run(
        ["lintian", "--allow-root", only(packages, "*.deb")],
        text=True,
        capture_output=True,
        timeout=SECONDS,
    )
    assert (ran.returncode, ran.stdout) == (0, "")


@pytest.fixture
def root(packages: Path, tmp_path: Path) -> Path:
    """An empty root in which the package is installed, beside a shell, two of its tools and the C
    library."""
    if os.geteuid() != 0:
        pytest.skip("only root installs a package in another root")
    place = tmp_path / "root"
    for folder in ("bin", "var/lib/dpkg/info", "var/lib/dpkg/updates", "var/lib/dpkg/triggers"):
        (place / folder).mkdir(parents=True)
    (place / "var/lib/dpkg/status").write_text("")
    subprocess.run(
        [
            "dpkg",
            f"--root={place}",
            "--force-depends",
            "--force-script-chrootless",
            "--install",
            only(packages, "*.deb"),
        ],
        check=True,
        capture_output=True,
        timeout=SECONDS,
    )
    for tool in TOOLS_OF_A_ROOT:
        shutil.copy(tool, place / "bin")
        told = subprocess.run(["ldd", tool], text=True, capture_output=True, check=True).stdout
        for library in re.findall(r"/\S+", told):
            to = place / library.lstrip("/")
            to.parent.mkdir(parents=True, exist_ok=True)
            shutil.copy(library, to)
    return place


def in_root(root: Path, *words: str, folder: str = "/") -> subprocess.CompletedProcess[str]:
    """Runs a command in the root, in one of its folders."""
    return subprocess.run(
        ["/usr/sbin/chroot", root, "/bin/sh", "-c", 'cd "$0" && exec "$@"', folder, *words],
        env={"PATH": "/usr/bin:/bin"},
        text=True,
        capture_output=True,
        timeout=SECONDS,
    )


def test_the_beers_in_an_empty_root(root: Path, beers: str) -> None:
    at = "/usr/share/doc/ratest/examples/beers"
    ran = in_root(
        root, "ratest", f"{at}/schema.sql", at, f"{at}/3/reference.sql", f"{at}/3/answers/b.sql"
    )
    assert (ran.returncode, ran.stdout, ran.stderr) == (1, beers, "")
    assert "build: proved\n" in in_root(root, "ratest_plus", "--version").stdout
    subprocess.run(
        ["dpkg", f"--root={root}", "--force-script-chrootless", "--purge", "ratest"],
        check=True,
        capture_output=True,
        timeout=SECONDS,
    )
    assert not list(root.glob("usr/**/*ratest*"))


def test_the_steps_of_the_container(root: Path, top: Path) -> None:
    """What the Dockerfile copies and runs, in the empty root: no engine of containers is needed."""
    lines = (top / "examples/container/Dockerfile").read_text().splitlines()
    assert [line.split()[0] for line in lines] == ["FROM", "COPY", "RUN", "COPY", "WORKDIR", "CMD"]
    shutil.copytree(top / "examples/beers", root / "exercise")
    shutil.copy(top / "examples/beers/3/reference.sql", root / "exercise/reference.sql")
    (root / "answers").mkdir()
    for name in ("answers/a.sql", "answers/b.sql", "reference.sql"):
        shutil.copy(top / "examples/beers/3" / name, root / "answers")
    (root / "answers/list").write_text("/answers/a.sql\n/answers/b.sql\n/answers/reference.sql\n")
    ran = in_root(root, *json.loads(lines[5].removeprefix("CMD ")), folder=lines[4].split()[1])
    assert (ran.returncode, ran.stderr) == (0, "")
    assert (
        ran.stdout
        == "/answers/a.sql: witness 5\n/answers/b.sql: witness 5\n/answers/reference.sql:"
        " agree\ngraded: 3\n"
    )


def test_the_container_gets_what_the_package_needs(
    packages: Path, top: Path, tmp_path: Path
) -> None:
    """The image has no Python: what the Dockerfile runs asks apt, which finds it for an empty
    root."""
    line = (top / "examples/container/Dockerfile").read_text().splitlines()[2]
    steps = line.removeprefix("RUN ").split(" && ")
    assert steps[0] == "apt-get update"
    words = shlex.split(steps[1])
    assert words[:2] == ["apt-get", "install"] and words[-1] == "/tmp/ratest_*_amd64.deb"
    (tmp_path / "status").write_text("")
    ran = subprocess.run(
        [
            "apt-get",
            "--simulate",
            "-o",
            f"Dir::State::status={tmp_path / 'status'}",
            *words[1:-1],
            only(packages, "*.deb"),
        ],
        text=True,
        capture_output=True,
        timeout=SECONDS,
    )
    if "python3" in ran.stderr and "not installable" in ran.stderr:
        pytest.skip("apt has no lists of packages: apt-get update")
    assert ran.returncode == 0, ran.stderr
    assert re.search(r"^Inst python3 ", ran.stdout, re.MULTILINE)
    assert re.search(r"^Inst ratest ", ran.stdout, re.MULTILINE)


def test_what_stops_it_is_one_line(copy: Path, tmp_path: Path) -> None:
    program = copy / "crates/ratest_plus/out/ratest_plus"
    later = time.time() + 100
    source = copy / "crates/ratest_plus/src/main.rt"
    before = source.stat()
    os.utime(source, (later, later))
    try:
        ran = subprocess.run(
            ["tools/package", "--output", tmp_path / "new"],
            cwd=copy,
            text=True,
            capture_output=True,
        )
    finally:
        os.utime(source, ns=(before.st_atime_ns, before.st_mtime_ns))
    assert program.exists()
    assert (ran.returncode, ran.stdout, ran.stderr) == (
        1,
        "",
        "package: ratest_plus is not proved and built here: ./ratest_plus --build\n",
    )
    assert not (tmp_path / "new").exists()


def test_changes_that_are_not_committed_are_told(copy: Path, tmp_path: Path) -> None:
    text = (copy / "LICENSE").read_text()
    (copy / "LICENSE").write_text(f"{text}\n")
    try:
        ran = subprocess.run(
            ["tools/package", "--output", tmp_path], cwd=copy, text=True, capture_output=True
        )
    finally:
        (copy / "LICENSE").write_text(text)
    assert ran.returncode == 0 and "with changes that are not committed, and says so" in ran.stderr
    assert "with changes that are not committed" in (tmp_path / "BUILD").read_text()


def test_two_versions_are_refused(copy: Path, tmp_path: Path) -> None:
    """The wheel's own is that of the module `ratest.installed`."""
    text = (copy / "VERSION").read_text()
    (copy / "VERSION").write_text("9.9.9\n")
    try:
        ran = subprocess.run(
            ["tools/package", "--output", tmp_path / "new"],
            cwd=copy,
            text=True,
            capture_output=True,
        )
    finally:
        (copy / "VERSION").write_text(text)
    assert (
        ran.returncode == 1
        and "python/ratest/installed.py has another version than VERSION: ratest-" in ran.stderr
    )
    assert not list((tmp_path / "new").glob("*.whl"))


def test_two_proved_builds_are_the_same(top: Path, tmp_path: Path) -> None:
    """In another folder the proved build makes the same file. It costs little where the proofs are
    kept, which a gate run before leaves, and is tried where the program here is proved and
    built."""
    if "RATEST" in os.environ or not shutil.which("rt"):
        pytest.skip(
            "RATEST names another program"
            if "RATEST" in os.environ
            else "there is no command rt on the PATH"
        )
    version = subprocess.run(
        ["./ratest", "--version"], cwd=top, text=True, capture_output=True
    ).stdout
    if "build: proved\n" not in version:
        pytest.skip("ratest is not proved and built: ./ratest --build")
    shutil.copytree(
        top,
        tmp_path / "another",
        symlinks=True,
        ignore=shutil.ignore_patterns("out", ".git", ".*_cache", "__pycache__"),
    )
    subprocess.run(
        ["./ratest", "--build"],
        cwd=tmp_path / "another",
        check=True,
        stdin=subprocess.DEVNULL,
        env={**os.environ, "XDG_CACHE_HOME": str(tmp_path)},
    )
    built = "crates/ratest/out/ratest"
    assert (tmp_path / "another" / built).read_bytes() == (top / built).read_bytes()
