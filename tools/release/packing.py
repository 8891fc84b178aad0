"""The Debian package, the tar.gz and the wheel, which depend on the commit and the proved programs
alone."""
from __future__ import annotations

import gzip
import hashlib
import io
import os
import re
import shutil
import subprocess
import tarfile
import tempfile
from email.utils import formatdate
from pathlib import Path

from launcher import texts
from release import tree, wheel
from release.files import Refused, copy, files_below, moment, put, settle
from release.library import SHARED

SECONDS = 120
CONTROL = """Package: ratest
Version: {version}
Section: education
Priority: optional
Architecture: amd64
Maintainer: {maintainer}
Installed-Size: {kilobytes}
Depends: libc6 (>= {libc}), python3 (>= 3.11)
Recommends: {recommended}
Description: explains why two SQL queries differ by the fewest rows
 Given a schema, one CSV file a table, a reference query and a student's query,
 ratest prints the fewest of the given rows on which the two queries answer
 differently, with both answers, or that they agree. A machine-checked proof
 says that no smaller choice of rows tells them apart.
 .
 ratest_plus compares queries in relational algebra, asks why a row is in an
 answer, grades a list of queries, and writes and checks certificates.
 .
 classroom grades a class and serves a page where students ask. The library
 libratest and the Python package ratest answer in other programs.
"""
# What each command of classroom, and the package ratest, use where they find it.
RECOMMENDED = {
    "page": ("python3-jinja2", "python3-markupsafe"),
    "grade --hosts": ("openssh-client", "parallel", "rsync"),
    "import and grade with PostgreSQL": ("postgresql-client", "python3-psycopg"),
    "collect of Gradescope's export": ("python3-yaml",),
    "grade where a database tries, mutants, pick": ("python3-sqlglot",),
    "serve": (
        "graphviz",
        "libjs-codemirror",
        "python3-flask",
        "python3-jinja2",
        "python3-limits",
        "python3-markdown-it",
        "python3-waitress",
    ),
    "tables of the package ratest": ("python3-pandas",),
}
CHANGES = """ratest ({version}) unstable; urgency=medium

  * What has changed stands in changelog.gz. Built from the commit
    {commit}.

 -- {maintainer}  {date}
"""
COPYRIGHT = """Format: https://www.debian.org/doc/packaging-manuals/copyright-format/1.0/
Upstream-Name: RATest

Files: *
Copyright: 2026 The RATest authors
License: Expat
{license}

Files: crates/rt_clause/*
Copyright: {circular}
License: Expat and BSD-3-Clause
 The hand proofs of this crate follow those of the crate circular_buffer.
 .
{circular_license}
"""
OVERRIDES = """# The programs are packed byte for byte as the proved build makes them.
ratest: unstripped-binary-or-object *
ratest: hardening-no-bindnow *
ratest: unstripped-static-library *
# Debian knows of no wish for the package.
ratest: initial-upload-closes-no-bugs *
"""


def pack(top: Path, output: Path) -> list[Path]:
    """Makes the packages and the wheel, a file that names the build, and SHA256SUMS in the folder;
    gives their paths."""
    commit = texts.commit(str(top))
    if not re.match(r"[0-9a-f]{40}\b", commit):
        raise Refused(f"the commit is {commit}: a package names its commit")
    version = (top / "VERSION").read_text().strip()
    with tempfile.TemporaryDirectory() as folder:
        made = Path(folder)
        archive = made / f"ratest-{version}-linux-x86_64.tar.gz"
        write_archive(top, made / f"ratest-{version}", archive)
        package = made / f"ratest_{version}-1_amd64.deb"
        write_package(top, made / "root", package, version, commit)
        wheel_file = made / wheel.name(version)
        wheel.write_wheel(top, wheel_file)
        build = made / "BUILD"
        build.write_text(texts.version_text(str(top), "ratest", "proved"))
        packed = (archive, package, wheel_file, build)
        sums = made / "SHA256SUMS"
        sums.write_text(
            "".join(
                f"{hashlib.sha256(path.read_bytes()).hexdigest()}  {path.name}\n" for path in packed
            )
        )
        output.mkdir(parents=True, exist_ok=True)
        for path in (*packed, sums):
            copy(path, output / path.name)
    return [output / path.name for path in (*packed, sums)]


def write_archive(top: Path, folder: Path, path: Path) -> None:
    """The tar.gz, whose folder can stand anywhere."""
    tree.lay_out(top, folder)
    seconds = moment(top)
    settle(folder, seconds)
    written = io.BytesIO()
    with tarfile.open(fileobj=written, mode="w", format=tarfile.GNU_FORMAT) as archive:
        for member in [folder, *sorted(folder.rglob("*"))]:
            about = archive.gettarinfo(str(member), arcname=str(member.relative_to(folder.parent)))
            about.uid = about.gid = 0
            about.uname = about.gname = "root"
            with open(member, "rb") if member.is_file() else io.BytesIO() as content:
                archive.addfile(about, content)
    path.write_bytes(gzip.compress(written.getvalue(), mtime=0))


def write_package(top: Path, root: Path, path: Path, version: str, commit: str) -> None:
    """The Debian package."""
    tree.lay_out(top, root / "usr", zsh="vendor-completions", python="python3")
    seconds = moment(top)
    about = root / "usr/share/doc/ratest"
    maintainer = subprocess.run(
        ["git", "-C", top, "log", "-1", "--format=%an <%ae>"],
        capture_output=True,
        text=True,
        check=True,
    ).stdout.strip()
    facts = {
        "version": f"{version}-1",
        "maintainer": maintainer,
        "commit": commit,
        "date": formatdate(seconds),
        "libc": libc(root),
        "recommended": ", ".join(
            sorted({it for packages in RECOMMENDED.values() for it in packages})
        ),
    }
    put(copyright_text(about).encode(), about / "copyright")
    for name in ("LICENSE", "LICENSE-circular_buffer"):
        (about / name).unlink()
    changes = (about / "CHANGELOG.md").read_bytes()
    (about / "CHANGELOG.md").unlink()
    put(gzip.compress(changes, mtime=0), about / "changelog.gz")
    put(gzip.compress(CHANGES.format(**facts).encode(), mtime=0), about / "changelog.Debian.gz")
    put(OVERRIDES.encode(), root / "usr/share/lintian/overrides/ratest")
    files = files_below(root)
    kilobytes = sum(-(-(root / it).stat().st_size // 1024) for it in files)
    sums = "".join(f"{hashlib.md5((root / it).read_bytes()).hexdigest()}  {it}\n" for it in files)
    put(CONTROL.format(kilobytes=kilobytes, **facts).encode(), root / "DEBIAN/control")
    put(sums.encode(), root / "DEBIAN/md5sums")
    settle(root, seconds)
    if not shutil.which("dpkg-deb"):
        raise Refused(
            "there is no program dpkg-deb, which makes the Debian package: apt-get install dpkg"
        )
    subprocess.run(
        ["dpkg-deb", "--root-owner-group", "-Zxz", "--threads-max=1", "--build", root, path],
        check=True,
        stdout=subprocess.DEVNULL,
        timeout=SECONDS,
        env={**os.environ, "SOURCE_DATE_EPOCH": str(seconds)},
    )


def libc(root: Path) -> str:
    """The least version of the C library that the programs and the shared object ask for."""
    found = [
        re.findall(rb"\0GLIBC_(\d+)\.(\d+)", (root / "usr/lib/ratest" / name).read_bytes())
        for name in (*tree.NAMES, SHARED)
    ]
    most = max((int(major), int(minor)) for versions in found for major, minor in versions)
    return f"{most[0]}.{most[1]}"


def copyright_text(about: Path) -> str:
    def spaced(name: str) -> tuple[str, str]:
        """The holders that a licence names, and the rest of it, a blank before each line."""
        lines = (about / name).read_text().splitlines()
        holders = [line for line in lines if line.startswith("Copyright")]
        rest = [line for line in lines[1:] if not line.startswith("Copyright")]
        while rest and not rest[0].strip():
            del rest[0]
        plain = re.sub(r"^Copyright( \(c\))? ", "", holders[0])
        return plain, "\n".join(f" {line}" if line.strip() else " ." for line in rest)

    circular, circular_license = spaced("LICENSE-circular_buffer")
    return COPYRIGHT.format(
        license=spaced("LICENSE")[1], circular=circular, circular_license=circular_license
    )
