"""The recipe of docs/SERVER.md, in its order: what it installs, copies, edits and starts."""
from __future__ import annotations

import re
import shutil
from pathlib import Path

import pytest
from products import TOP, run

PAGE = (TOP / "docs/SERVER.md").read_text(encoding="utf-8")
STEPS = PAGE.split("## Install step by step")[1].split("\n## ")[0]
UNIT = (TOP / "examples/server/classroom.service").read_text()


def commands() -> list[str]:
    """The commands of the steps, in their order."""
    blocks = re.findall(r"^ +```\n(.*?)^ +```", STEPS, re.DOTALL | re.MULTILINE)
    return [line.strip() for block in blocks for line in block.splitlines()]


def test_packages_are_those_of_debian() -> None:
    names = next(line for line in commands() if line.startswith("apt-get install")).split()[2:]
    # Hints and tried tasks need the one, the file of logins the other.
    assert {"python3-sqlglot", "apache2-utils"} <= set(names)
    if not shutil.which("apt-cache"):
        pytest.skip("no program apt-cache")
    known = run("apt-cache", "pkgnames").stdout.split()
    if len(known) < 1000:
        pytest.skip("apt has no lists of packages: apt-get update")
    assert set(names) <= set(known)


def test_files_that_are_copied_are_there() -> None:
    copied = [line.split()[1] for line in commands() if line.startswith("cp ")]
    assert len(copied) == 2
    for path in copied:
        assert (TOP / path.removeprefix("/opt/ratest/")).is_file(), path


def test_nothing_is_started_before_it_is_edited_and_tested() -> None:
    lines = commands()
    assert lines.index("nginx -t") < lines.index("systemctl reload nginx")
    assert STEPS.index("Edit `/etc/nginx/conf.d/classroom.conf`") < STEPS.index("nginx -t")
    assert STEPS.index("htpasswd -c") < STEPS.index("nginx -t")


def test_hand_ins_are_fetched_from_where_the_unit_keeps_them() -> None:
    kept = re.search(r"--asked-file (\S+)", UNIT)
    section = PAGE.split("## Fetch the hand-ins")[1].split("\n## ")[0]
    fetched = re.search(r"--asked-file (\S+)", section)
    assert kept and fetched and fetched[1] == f"{kept[1]}/EXERCISE.db"


def test_nginx_takes_the_file_once_it_is_edited(tmp_path: Path) -> None:
    nginx, openssl = shutil.which("nginx", path="/usr/sbin:/usr/bin"), shutil.which("openssl")
    if not nginx or not openssl:
        pytest.skip("no program nginx or openssl: apt-get install nginx-light openssl")
    text = (TOP / "examples/server/nginx.conf").read_text()
    users = re.search(r"htpasswd -c (\S+) anna", STEPS)
    assert users and f"auth_basic_user_file {users[1]};" in text
    ports = re.sub(r"    listen \[::\]:(443 ssl|80);\n", "", text)
    ports = ports.replace("listen 443 ssl;", f"listen unix:{tmp_path}/tls ssl;")
    ports = ports.replace("listen 80;", f"listen unix:{tmp_path}/plain;")
    ports = ports.replace("/var/log/nginx/", f"{tmp_path}/")
    as_copied = said_by_nginx(nginx, tmp_path, ports)
    assert "sql.example.org.pem" in as_copied
    subject = ("-subj", "/CN=sql.example.org")
    keys = ("-keyout", tmp_path / "key", "-out", tmp_path / "certificate")
    run(openssl, "req", "-x509", "-newkey", "rsa:2048", "-nodes", *subject, *keys)
    edited = ports.replace("/etc/ssl/certs/sql.example.org.pem", f"{tmp_path}/certificate")
    edited = edited.replace("/etc/ssl/private/sql.example.org.key", f"{tmp_path}/key")
    (tmp_path / "users").write_text(f"anna:{run(openssl, 'passwd', '-apr1', 'secret').stdout}")
    edited = edited.replace(users[1], f"{tmp_path}/users")
    assert "test is successful" in said_by_nginx(nginx, tmp_path, edited)


def said_by_nginx(nginx: str, folder: Path, site: str) -> str:
    """What `nginx -t` says of a site."""
    (folder / "site.conf").write_text(site)
    (folder / "nginx.conf").write_text(
        f"pid {folder}/pid;\nerror_log {folder}/error.log;\nevents {{}}\n"
        f"http {{\naccess_log off;\ninclude {folder}/site.conf;\n}}\n"
    )
    ran = run(nginx, "-t", "-p", folder, "-c", folder / "nginx.conf")
    return ran.stdout + ran.stderr
