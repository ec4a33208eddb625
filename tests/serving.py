"""What tests of running replicas share: how their manager asks, what each replica shows, and how a script of such tests is run."""
from __future__ import annotations

import re
import socket
import statistics
import tempfile
import time
import traceback
import urllib.error
import urllib.request
from collections.abc import Callable

import ldap_client as ldap
from replicas import MANAGER, PASSWORD, SUFFIX, Cluster, Replica

HOST = "127.0.0.1"
# How replicas of most tests wait for their primary, in milliseconds: for longer than a starved machine keeps one from its beats.
WORDS = ["--beat", "100", "--suspect", "10000"]
# How those wait whose primary ends or pauses.
QUICK = ["--beat", "100", "--suspect", "2000"]
SUSPECT = int(QUICK[QUICK.index("--suspect") + 1]) / 1000
# How long what has to come is waited for, in seconds, where only a hang is to be noticed.
PATIENCE = 60.0


def item(number: int) -> tuple[str, list[tuple[str, list[str]]]]:
    """An entry under the suffix."""
    return f"cn=item{number},{SUFFIX}", [("objectClass", ["item"]), ("cn", [f"item{number}"]), ("rank", [str(number)])]


def manager(cluster: Cluster, index: int, timeout: float = 20.0) -> ldap.Client:
    """The manager's session at a replica."""
    client = ldap.Client(HOST, cluster.ldap_port(index), timeout)
    code = client.bind(MANAGER, PASSWORD)
    assert code == 0, f"bind at {index}: {code}"
    return client


def is_primary(cluster: Cluster, index: int, seconds: float) -> bool:
    """Whether a replica takes updates now, and says so within this time."""
    try:
        client = manager(cluster, index, seconds)
        code, _, _, _ = client.ask(ldap.noop())
        client.close()
        return code == 0
    except (OSError, ldap.Closed, AssertionError):
        return False


def primary(cluster: Cluster, seconds: float = PATIENCE) -> int:
    """The index of the replica that takes updates, once there is one. The longer that takes, the longer each is asked."""
    end = time.time() + seconds
    asks = 2.0
    while time.time() < end:
        for replica in cluster.replicas:
            if replica.process is not None and is_primary(cluster, replica.index, asks):
                return replica.index
        time.sleep(0.1)
        asks = min(1.2 * asks, seconds / 4)
    raise AssertionError("no primary")


def names_at(cluster: Cluster, index: int, number: int, seconds: float = PATIENCE) -> set[str]:
    """The names of all entries at a replica, from a state no older than the update of this number."""
    end = time.time() + seconds
    cluster.replicas[index].listens.wait(seconds)
    client = ldap.Client(HOST, cluster.ldap_port(index))
    while True:
        code, _, entries, _ = client.ask(ldap.search(SUFFIX, 2, ldap.present("objectClass"), ["1.1"]), [ldap.control(ldap.READ, str(number))])
        if code == 0:
            client.close()
            return {name for name, _ in entries}
        assert code in (51, 52), f"search at {index}: {code}"
        assert time.time() < end, f"replica {index} is not at {number} in time"
        time.sleep(0.05)


def add_at(client: ldap.Client, name: str, pairs: list[tuple[str, list[str]]]) -> int:
    """Adds an entry, and gives the number of the update."""
    code, controls, _, _ = client.ask(ldap.add(name, pairs), [ldap.control(ldap.READ, "0")])
    assert code == 0, f"add of {name}: {code}"
    return int(controls[ldap.READ])


def begin(cluster: Cluster) -> int:
    """The suffix's entry, added."""
    client = manager(cluster, primary(cluster))
    number = add_at(client, SUFFIX, [("objectClass", ["domain"]), ("dc", ["example"])])
    client.unbind()
    return number


def added_at_primary(cluster: Cluster, first: int, count: int) -> tuple[set[str], int]:
    """So many entries, added one after the other: their names and the number of the last."""
    client = manager(cluster, primary(cluster))
    names, last = set(), 0
    for number in range(first, first + count):
        last = add_at(client, *item(number))
        names.add(item(number)[0])
    client.unbind()
    return names, last


def root_search() -> bytes:
    return ldap.search("", 0, ldap.present("objectClass"))


def asked(client: ldap.Client, what: str) -> float:
    """A search of the root DSE is answered, after so many seconds."""
    began = time.time()
    code, _, _, _ = client.ask(root_search())
    assert code == 0, f"{what}: {code}"
    return time.time() - began


def are_soon(waits: list[float], seconds: float, what: str) -> None:
    """Most waits are short. A starved machine makes some of them long; who holds others up makes all of them long."""
    middle = statistics.median(waits)
    assert middle < seconds, f"{what}: mostly after {middle:.2f} s"


def said(replica: Replica, form: str, seconds: float = PATIENCE) -> re.Match[str]:
    """The first line of this form that a replica says, once it has."""
    end = time.time() + seconds
    while time.time() < end:
        for line in list(replica.lines):
            if found := re.fullmatch(form, line):
                return found
        time.sleep(0.02)
    raise AssertionError(f"no line {form!r} in {replica.lines}")


class MonitoredReplica(Replica):
    """A replica that answers monitors."""

    port = 0

    def command(self, fresh: bool) -> list[str]:
        command = super().command(fresh)
        return [*command[:-3], "--metrics", f"{HOST}:{self.port}", *command[-3:]]

    def page(self, path: str) -> tuple[int, str]:
        """The status and the text of a page."""
        try:
            with urllib.request.urlopen(f"http://{HOST}:{self.port}{path}", timeout=PATIENCE) as answer:
                return answer.status, answer.read().decode()
        except urllib.error.HTTPError as error:
            return error.code, error.read().decode()

    def head(self, path: str) -> bytes:
        """What it answers to HEAD."""
        with socket.create_connection((HOST, self.port), PATIENCE) as asking:
            asking.sendall(f"HEAD {path} HTTP/1.1\r\nHost: x\r\n\r\n".encode())
            return b"".join(iter(lambda: asking.recv(65536), b""))

    def figure(self, name: str) -> str:
        """One of its figures."""
        _, text = self.page("/metrics")
        return next(line.rpartition(" ")[2] for line in text.splitlines() if line.startswith(f"{name} "))


def raise_up(cluster: Cluster) -> None:
    """Starts the replicas that a failed test left dead, so that the next test fails for a cause of its own."""
    for replica in cluster.replicas:
        if replica.process is None or replica.process.poll() is not None:
            replica.kill()
            replica.start(False)


def play_one(tests: list[Callable[[Cluster], None]], words: list[str]) -> tuple[int, int]:
    """Plays the tests one after the other with one cluster, tells of each, and gives how many passed and how many failed."""
    passed = failed = 0
    with tempfile.TemporaryDirectory() as folder:
        cluster = Cluster(folder, 9, 3, words)
        try:
            cluster.start()
            for test in tests:
                began = time.time()
                try:
                    test(cluster)
                    passed += 1
                    print(f"ok {test.__name__} {time.time() - began:.1f} s", flush=True)
                except Exception:
                    failed += 1
                    print(f"FAILED {test.__name__}", flush=True)
                    traceback.print_exc()
                    for replica in cluster.replicas:
                        print(replica.index, replica.process and replica.process.poll(), replica.lines[-8:], flush=True)
                    raise_up(cluster)
        finally:
            cluster.kill()
    return passed, failed


def play(*groups: tuple[list[Callable[[Cluster], None]], list[str]]) -> int:
    """Plays groups of tests, each with a cluster of its own that is told these words, and gives the status to end with."""
    counts = [play_one(tests, words) for tests, words in groups]
    passed, failed = sum(count[0] for count in counts), sum(count[1] for count in counts)
    print(f"{passed} passed, {failed} failed")
    return 1 if failed else 0


def play_each(tests: list[Callable[[], None]]) -> int:
    """Plays the tests one after the other, each of which makes what it needs, tells of each, and gives the status to end with."""
    failed = 0
    for test in tests:
        began = time.time()
        try:
            test()
            print(f"ok {test.__name__} {time.time() - began:.1f} s", flush=True)
        except Exception:
            failed += 1
            print(f"FAILED {test.__name__}", flush=True)
            traceback.print_exc()
    print(f"{len(tests) - failed} passed, {failed} failed")
    return 1 if failed else 0
