"""Two hosts, each in a network namespace with a server of ssh, one of which is lost half way."""

import os
import shutil
import signal
import subprocess
import time
from collections.abc import Callable, Iterator, Sequence
from contextlib import suppress
from dataclasses import dataclass
from pathlib import Path

import pytest

from page.certificates import TOP
from pert_companion.portfolio.hosts import SILENCE, Hosts
from pert_companion.portfolio.job import Job
from pert_companion.portfolio.row import Row, row_of
from pert_companion.programs.client import Programs

PROGRAMS = Programs()
COMMAND = TOP / "companion" / "bin" / "pert-portfolio"
SHORT_SILENCE = 30
"""Seconds, more than the pause between two signs of life."""
NEEDED = ("parallel", "ssh", "ssh-keygen", "sshd", "ip")
DECK = """PROJECT,P{number},S,T,2026-03-02,1,,Project {number}
WBS,1,,Top
WBS,1.1,1,Work
TASK,A,1.1,2,3,5,3,2,0,50,Dig
TASK,B,1.1,3,4,9,4,3,0,70,Build
AFTER,B,A
END
"""
pytestmark = pytest.mark.skipif(
    os.getuid() != 0 or any(shutil.which(name) is None for name in NEEDED),
    reason=f"needs root and {', '.join(NEEDED)}",
)


def system(*words: str) -> None:
    """Runs a command of the system that has to succeed."""
    subprocess.run(words, check=True, capture_output=True)


@dataclass(frozen=True)
class Host:
    """A namespace with an address, and a server of ssh in it."""

    namespace: str
    address: str
    server: "subprocess.Popen[bytes]"

    def unplug(self) -> None:
        """Makes all that is sent to it or by it vanish; what runs on it goes on."""
        system("ip", "-n", self.namespace, "link", "set", "eth", "down")

    def kill(self) -> None:
        """Kills everything that runs on it."""
        words = ["ip", "netns", "pids", self.namespace]
        found = subprocess.run(words, check=True, capture_output=True, text=True)
        for pid in found.stdout.split():
            with suppress(ProcessLookupError):  # it has ended meanwhile
                os.kill(int(pid), signal.SIGKILL)


def start(folder: Path, number: int) -> Host:
    """Returns a host that answers to the key of the folder."""
    namespace = f"pert{os.getpid() % 100000}{'ab'[number]}"
    base = f"198.18.{os.getpid() % 256}.{4 * number}"
    ours, theirs = (f"{base.rpartition('.')[0]}.{4 * number + part}" for part in (1, 2))
    inside = ("ip", "-n", namespace)
    system("ip", "netns", "add", namespace)
    system("ip", "link", "add", f"{namespace}h", "type", "veth", "peer", "eth", "netns", namespace)
    system("ip", "address", "add", f"{ours}/30", "dev", f"{namespace}h")
    system("ip", "link", "set", f"{namespace}h", "up")
    system(*inside, "address", "add", f"{theirs}/30", "dev", "eth")
    system(*inside, "link", "set", "eth", "up")
    settings = folder / f"sshd-{namespace}"
    settings.write_text(
        f"ListenAddress {theirs}\nHostKey {folder}/host\nPidFile none\nUsePAM no\n"
        f"AuthorizedKeysFile {folder}/user.pub\nStrictModes no\nPermitRootLogin yes\n"
        "LogLevel ERROR\n"
    )
    server = ["/usr/sbin/sshd", "-D", "-e", "-f", str(settings)]
    running = subprocess.Popen(["ip", "netns", "exec", namespace, *server])
    host = Host(namespace, theirs, running)
    wait_for(folder, host)
    return host


def wait_for(folder: Path, host: Host) -> None:
    """Waits until a host lets somebody in; one whose server has ended never does."""
    words = ["ssh", "-F", str(folder / "config"), f"root@{host.address}", "true"]
    while subprocess.run(words, capture_output=True, check=False).returncode:
        assert host.server.poll() is None
        time.sleep(0.1)


@pytest.fixture(name="hosts")
def _hosts(tmp_path: Path, monkeypatch: pytest.MonkeyPatch) -> Iterator[list[Host]]:
    """Two hosts, to which the plain command `ssh` has a key."""
    Path("/run/sshd").mkdir(mode=0o755, exist_ok=True)
    for name in ("host", "user"):
        system("ssh-keygen", "-q", "-t", "ed25519", "-N", "", "-f", str(tmp_path / name))
    (tmp_path / "config").write_text(
        f"IdentityFile {tmp_path}/user\nStrictHostKeyChecking no\nLogLevel ERROR\n"
        f"UserKnownHostsFile {tmp_path}/known\n"
    )
    (tmp_path / "bin").mkdir()
    ssh = tmp_path / "bin" / "ssh"
    ssh.write_text(f'#!/bin/sh\nexec {shutil.which("ssh")} -F {tmp_path}/config "$@"\n')
    ssh.chmod(0o755)
    monkeypatch.setenv("PATH", f"{tmp_path}/bin:{os.environ['PATH']}")
    started: list[Host] = []
    try:
        started.extend(start(tmp_path, number) for number in range(2))
        yield started
    finally:
        for number in range(2):
            clear(f"pert{os.getpid() % 100000}{'ab'[number]}", started)


def clear(namespace: str, started: list[Host]) -> None:
    """Takes a host away."""
    for host in started:
        if host.namespace == namespace:
            host.kill()
            host.server.wait()
    # A namespace goes some time after its name, and its link with it, whose name is used again.
    for what in (["link", "del", f"{namespace}h"], ["netns", "del", namespace]):
        subprocess.run(["ip", *what], check=False, capture_output=True)


def decks(folder: Path, count: int) -> list[Job]:
    """Writes decks, and returns what is to be read."""
    for number in range(count):
        (folder / f"p{number}.csv").write_text(DECK.format(number=number))
    return [Job(folder / f"p{number}.csv", None, f"p{number}.csv") for number in range(count)]


@dataclass(frozen=True)
class Found:
    """What two hosts did of which the last one was lost half way."""

    rows: Sequence[Row]
    left_out: Sequence[str]
    seconds: float
    """From the loss to the last row."""


def rows_by(
    hosts: list[Host], folder: Path, jobs: list[Job], lose: Callable[[], None], silence: int
) -> Found:
    """Returns the rows that hosts make, the last of which is lost when it has made some of them."""
    logins = folder / "hosts"
    logins.write_text("".join(f"1/root@{host.address}\n" for host in hosts))
    met = folder / "met"
    remote = f"ip netns identify >>{met}; {COMMAND} --bin {Path(PROGRAMS.find('pert')).parent}"
    asked = Hosts(logins, remote, silence)
    rows: dict[int, Row] = {}
    lost_at = None
    for number, row in asked.rows(list(enumerate(jobs))):
        rows[number] = row
        if lost_at is None and met.read_text().split().count(hosts[-1].namespace) >= 2:
            lost_at = time.monotonic()
            lose()
    assert lost_at is not None and hosts[0].namespace in met.read_text()
    seconds = time.monotonic() - lost_at
    return Found([rows[number] for number in range(len(jobs))], asked.left_out, seconds)


def test_the_other_host_makes_the_rows_of_one_that_is_killed_half_way(
    hosts: list[Host], tmp_path: Path
) -> None:
    """It alone is left out and named; each row is the one that is made here."""
    jobs = decks(tmp_path, 48)
    found = rows_by(hosts, tmp_path, jobs, hosts[-1].kill, SILENCE)
    assert [line.partition(":")[0] for line in found.left_out] == [f"root@{hosts[-1].address}"]
    assert found.rows == [row_of(PROGRAMS, job) for job in jobs]


def test_the_other_host_makes_the_rows_of_one_that_is_unplugged_half_way(
    hosts: list[Host], tmp_path: Path
) -> None:
    """It is left out when it was silent for long enough, once and not for each of its decks."""
    jobs = decks(tmp_path, 48)
    found = rows_by(hosts, tmp_path, jobs, hosts[-1].unplug, SHORT_SILENCE)
    fault = f"was silent for {SHORT_SILENCE} seconds"
    assert found.left_out == [f"root@{hosts[-1].address}: {fault}"]
    assert found.rows == [row_of(PROGRAMS, job) for job in jobs]
    assert found.seconds < 240
