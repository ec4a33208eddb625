"""Replicas of one cluster as processes of this machine: started, ended by kill -9, started again. Ports, folders and words flow in; processes flow out."""
from __future__ import annotations

import functools
import hashlib
import os
import random
import re
import signal
import socket
import subprocess
import threading

TOP = os.path.dirname(os.path.dirname(os.path.abspath(__file__)))
SUFFIX = "dc=example,dc=com"
MANAGER = "cn=admin,dc=example,dc=com"
PASSWORD = "secret"
# What is said by a replica that waits for others before it serves clients.
WAITS = re.compile(r": recovering$|, resuming in view ")
# What a program says first whose proofs were not checked.
UNPROVED = "unproved build: the same sources, their proofs not checked; ./prove checks them and builds the proved program"
# The time that begins a line of standard error, in UTC.
TIME = re.compile(r"^\d{4}-\d\d-\d\dT\d\d:\d\d:\d\d\.\d{3}Z ")


@functools.cache
def program() -> str:
    """The program: that of the environment's DIRD, or the repository's: the proved one, where it stands and is fresh, else the unproved one, built where it is not."""
    if "DIRD" in os.environ:
        return os.environ["DIRD"]
    return subprocess.run([os.path.join(TOP, "tools", "program"), "dird"], check=True, stdout=subprocess.PIPE, text=True).stdout.strip()


@functools.cache
def is_proved() -> bool:
    """Whether the program's proofs were checked, as it says itself."""
    said = subprocess.run([program(), "--version"], check=True, stdout=subprocess.PIPE, stderr=subprocess.DEVNULL, text=True).stdout
    return not said.rstrip().endswith("unproved")


def free_ports(count: int) -> list[int]:
    """Ports of the loopback interface that nobody has now. Where there is room, they are below those that the system itself gives away: so no other process is
    given one between here and the replica's start, or while the replica is down."""
    with open("/proc/sys/net/ipv4/ip_local_port_range", encoding="ascii") as file:
        lowest = int(file.read().split()[0])
    held: list[socket.socket] = []
    while len(held) < count:
        one = socket.socket()
        try:
            one.bind(("127.0.0.1", random.randrange(10_000, lowest) if lowest >= 20_000 else 0))
            held.append(one)
        except OSError:
            one.close()
    ports = [one.getsockname()[1] for one in held]
    for one in held:
        one.close()
    return ports


class Replica:
    """One replica, which may be down."""

    def __init__(self, cluster: "Cluster", index: int):
        self.cluster = cluster
        self.index = index
        self.process: subprocess.Popen | None = None
        self.lines: list[str] = []
        # Keeps its lines, until it ends.
        self.keeper = threading.Thread()
        # Whether it serves clients.
        self.listens = threading.Event()
        # Further words for how the process is made.
        self.options: dict = {}

    def store(self) -> str:
        """The file of its stored view."""
        return os.path.join(self.cluster.folder, f"view-{self.index}")

    def journal(self) -> str:
        """The file of its journal, where it keeps one."""
        return os.path.join(self.cluster.folder, f"journal-{self.index}")

    def files(self) -> list[str]:
        """The words that name its files."""
        return ["--store", self.store(), *(["--journal", self.journal()] if self.cluster.keeps_journals else [])]

    def command(self, fresh: bool) -> list[str]:
        """The command line that starts it."""
        return [self.cluster.program, "serve", "--cluster", str(self.cluster.number), "--id", str(self.index),
                *self.files(), "--suffix", self.cluster.suffix, "--manager", self.cluster.manager,
                "--password", PASSWORD, *self.cluster.words, *(["--fresh"] if fresh else []), *self.cluster.places_for(self.index)]

    def forget(self) -> None:
        """Gives up what an earlier cluster stored in the folder."""
        for file in (self.store(), self.journal()):
            if os.path.exists(file):
                os.remove(file)

    def start(self, fresh: bool) -> None:
        """Starts it, and waits until it serves clients or says that it recovers or goes on from its journal. At its first start in a new cluster what an earlier
        cluster stored in the folder is given up."""
        if fresh:
            self.forget()
        self.listens.clear()
        before = len(self.lines)
        # In a session of its own, so that Ctrl-C ends only who started it.
        self.process = subprocess.Popen(self.command(fresh), stdin=subprocess.DEVNULL, stdout=subprocess.PIPE, stderr=subprocess.PIPE, text=True,
                                        start_new_session=True, **self.options)
        self.keeper = threading.Thread(target=self._keep, args=(self.process.stderr,), daemon=True)
        self.keeper.start()
        threading.Thread(target=self._listen, args=(self.process.stdout,), daemon=True).start()
        while not self.listens.wait(0.005) and not any(WAITS.search(line) for line in self.lines[before:]):
            if self.process.poll() is not None:
                self.keeper.join()
                raise RuntimeError(f"replica {self.index} doesn't start: {self.lines[before:]}")

    def _listen(self, stream) -> None:
        """Waits until it serves clients."""
        if stream.readline().startswith("listening "):
            self.listens.set()

    def _keep(self, stream) -> None:
        """Keeps what it says on standard error, without the time; what it says of why it ends has none."""
        for line in stream:
            if line.rstrip("\n") != UNPROVED:
                self.lines.append(TIME.sub("", line.rstrip("\n")))

    def pause(self) -> None:
        """Stops all of its threads, and comes back when the last one stands still: until then it may still acknowledge an update."""
        self.process.send_signal(signal.SIGSTOP)
        os.waitid(os.P_PID, self.process.pid, os.WSTOPPED)

    def go_on(self) -> None:
        """Lets it run again."""
        self.process.send_signal(signal.SIGCONT)

    def kill(self) -> None:
        """Ends it at once, as a crash does."""
        if self.process is not None:
            self.process.kill()
            self.process.wait()
            self.process = None


class Cluster:
    """Replicas, by index."""

    def __init__(self, folder: str, number: int = 1, count: int = 3, words: list[str] = [], ports: list[int] | None = None, suffix: str = SUFFIX,
                 keeps_journals: bool = False):
        self.program = program()
        self.keeps_journals = keeps_journals
        self.folder = folder
        self.number = number
        self.words = words
        self.suffix = suffix
        self.manager = f"cn=admin,{suffix}"
        self.ports = ports or free_ports(2 * count)
        self.replicas = [Replica(self, index) for index in range(count)]

    def places(self) -> list[str]:
        """The words for all replicas: where replicas find each, and where clients do."""
        pairs = zip(self.ports[0::2], self.ports[1::2])
        return [f"127.0.0.1:{peer},127.0.0.1:{ldap}" for peer, ldap in pairs]

    def places_for(self, index: int) -> list[str]:
        """The same words, as the replica of this index is told them."""
        return self.places()

    def greeting(self, sender: int, start: int = 1, mark: int = 0, remembers: bool = True, view: int = 0, last: int = 0, length: int = 0) -> bytes:
        """The first frame on a connection of the replica of this index, where no file of a schema is named, and its start says this of itself."""
        clients = "".join(f"127.0.0.1:{port}\n" for port in self.ports[1::2])
        digests = bytes(32) + b"".join(hashlib.sha256(text.encode()).digest() for text in (self.suffix, clients))
        numbers = [number.to_bytes(8, "big") for number in (start, mark, view, last, length)]
        claim = numbers[0] + numbers[1] + bytes([remembers]) + b"".join(numbers[2:])
        body = bytes([2]) + self.number.to_bytes(6, "big") + bytes([14, sender]) + digests + claim
        return len(body).to_bytes(4, "big") + body

    def ldap_port(self, index: int) -> int:
        return self.ports[2 * index + 1]

    def start(self, fresh: bool = True) -> None:
        for replica in self.replicas:
            replica.start(fresh)

    def kill(self) -> None:
        for replica in self.replicas:
            replica.kill()
