"""`classroom grade --hosts`, on real servers of ssh on this machine's loopback."""
from __future__ import annotations

import getpass
import os
import pwd
import shutil
import signal
import socket
import subprocess
import time
from collections.abc import Iterator
from pathlib import Path

import made_class
import pytest
from kept import same, without_seconds
from products import classroom, run

from classroom.process.hosts import place_on_hosts

NEEDED = {
    "sshd": "openssh-server",
    "ssh-keygen": "openssh-client",
    "rsync": "rsync",
    "parallel": "parallel",
}


def free_port() -> int:
    with socket.socket() as probe:
        probe.bind(("127.0.0.1", 0))
        return int(probe.getsockname()[1])


@pytest.fixture(scope="module")
def hosts(tmp_path_factory: pytest.TempPathFactory) -> Iterator[list[str]]:
    """The lines of an --sshloginfile for two servers, with keys that are made for them."""
    path = f"{os.environ['PATH']}:/usr/sbin"
    for program, package in NEEDED.items():
        if not shutil.which(program, path=path):
            pytest.skip(f"no program {program}: apt-get install {package}")
    place = tmp_path_factory.mktemp("ssh")
    place.chmod(0o755)
    for key in ("host", "user"):
        assert not run("ssh-keygen", "-q", "-t", "ed25519", "-N", "", "-f", place / key).returncode
    (place / "keys").write_text((place / "user.pub").read_text())
    if os.getuid() == 0:
        Path("/run/sshd").mkdir(exist_ok=True)
    servers, lines = [], []
    for _ in range(2):
        port = free_port()
        config = place / f"config-{port}"
        config.write_text(
            f"Port {port}\nListenAddress 127.0.0.1\nHostKey {place}/host\nAuthorizedKeysFile"
            f" {place}/keys\nStrictModes no\nUsePAM no\nPasswordAuthentication no\nPidFile"
            " none\nMaxStartups 100\nMaxSessions 100\n"
        )
        with open(place / f"log-{port}", "wb") as log:
            servers.append(
                subprocess.Popen(
                    [str(shutil.which("sshd", path=path)), "-D", "-e", "-f", config], stderr=log
                )
            )
        lines.append(
            f"ssh -p {port} -i {place}/user -o BatchMode=yes -o StrictHostKeyChecking=no "
            f"-o UserKnownHostsFile=/dev/null -o LogLevel=ERROR {getpass.getuser()}@127.0.0.1"
        )
    for line in lines:
        for _ in range(50):
            ran = run("sh", "-c", f"{line} true")
            if not ran.returncode:
                break
            time.sleep(0.1)
        assert not ran.returncode, ran.stderr
    yield lines
    for server in servers:
        server.terminate()
        server.wait()


def place_of(exercise: Path) -> Path:
    """What an exercise has on the hosts, where sshd begins in the home of the user's account,
    whatever HOME says."""
    return Path(pwd.getpwuid(os.getuid()).pw_dir) / place_on_hosts(exercise / "results/work")


def test_two_hosts(ratest: Path, tmp_path: Path, hosts: list[str]) -> None:
    made_class.make(tmp_path / "here/class", 2000 if os.environ.get("CLASSROOM_FULL") else 60)
    shutil.copytree(tmp_path / "here/class", tmp_path / "there/class")
    (tmp_path / "hosts").write_text("# two hosts\n" + "".join(f"{line}\n" for line in hosts))
    here = classroom("grade", "--only-proved", tmp_path / "here/class")
    there = classroom(
        "grade",
        "--only-proved",
        tmp_path / "there/class",
        "--hosts",
        tmp_path / "hosts",
        "--jobs",
        "2",
    )
    assert (
        (here.returncode, here.stderr)
        == (there.returncode, there.stderr)
        == (1, made_class.left(tmp_path / "here/class"))
    )
    assert here.stdout.splitlines()[0] == there.stdout.splitlines()[0]
    same(tmp_path / "here/class", tmp_path / "there/class")
    assert not place_of(tmp_path / "there/class").exists()


def test_a_host_that_does_not_answer(
    ratest: Path, tmp_path: Path, beers: Path, hosts: list[str]
) -> None:
    port = free_port()
    (tmp_path / "hosts").write_text(f"{hosts[0]}\nssh -p {port} nobody@127.0.0.1\n")
    ran = classroom("grade", "--only-proved", beers, "--hosts", tmp_path / "hosts")
    assert ran.returncode == 0, ran.stderr
    assert ran.stderr.count("\n") == 1
    assert ran.stderr.startswith(
        f"classroom: the host ssh -p {port} nobody@127.0.0.1 is left out: "
    )
    (tmp_path / "hosts").write_text(f"ssh -p {port} nobody@127.0.0.1\n")
    shutil.rmtree(beers / "results")
    ran = classroom("grade", "--only-proved", beers, "--hosts", tmp_path / "hosts")
    assert ran.returncode == 1
    assert ran.stderr.splitlines()[-1] == f"classroom: {tmp_path}/hosts: no host answers"


def test_killed_with_hosts(ratest: Path, tmp_path: Path, hosts: list[str]) -> None:
    """What a run that is killed leaves on the hosts goes with the next run."""
    made_class.make(tmp_path / "one/class", 60)
    shutil.copytree(tmp_path / "one/class", tmp_path / "two/class")
    (tmp_path / "hosts").write_text("".join(f"{line}\n" for line in hosts))
    words = [
        str(made_class.TOP / "classroom"),
        "grade",
        str(tmp_path / "one/class"),
        "--hosts",
        str(tmp_path / "hosts"),
    ]
    process = subprocess.Popen(words, stdout=subprocess.DEVNULL, stderr=subprocess.DEVNULL)
    runs = tmp_path / "one/class/results/runs"
    for _ in range(600):
        if process.poll() is not None or runs.is_dir() and len(list(runs.iterdir())) > 5:
            break
        time.sleep(0.05)
    assert place_of(tmp_path / "one/class").exists()
    process.send_signal(signal.SIGKILL)
    process.wait()
    left = made_class.left(tmp_path / "two/class")
    assert (
        classroom(
            "grade", "--only-proved", tmp_path / "one/class", "--hosts", tmp_path / "hosts"
        ).stderr
        == left
    )
    assert classroom("grade", "--only-proved", tmp_path / "two/class").stderr == left
    assert without_seconds(tmp_path / "one/class") == without_seconds(tmp_path / "two/class")
    assert not place_of(tmp_path / "one/class").exists()
