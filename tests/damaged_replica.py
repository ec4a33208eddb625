"""Gives a replica what is damaged: the file of its stored view, and frames at its port for peers. Returns how many inputs there were, and what was wrong."""
from __future__ import annotations

import errno
import os
import re
import signal
import socket
import subprocess
import tempfile
import threading

import ldap_client as ldap
from damages import changes, fronts
from replicas import UNPROVED, Cluster
from serving import HOST

NUMBER = 9
# How long it may be silent, in seconds, before that counts as a hang.
PATIENCE = 60
UNREACHED = re.compile(r"\S+Z replica \d can't be reached at .+\n")
RECOVERS = re.compile(r"\S+Z view \d+: recovering\n")
REFUSALS = r"(?:no stored view|foreign cluster|cannot open the stored view|E25)\n--store: .+"


def stores(is_whole: bool) -> tuple[int, list[str]]:
    """Starts a replica over each damaged form of a file that it has written: it listens, or refuses by name."""
    with tempfile.TemporaryDirectory() as folder:
        cluster = Cluster(folder, NUMBER)
        replica = cluster.replicas[0]
        for fresh in (True, False):
            replica.start(fresh)
            replica.kill()
        with open(replica.store(), "rb") as file:
            pair = file.read()
        damaged = [b"", pair + b"\0", pair * 64, pair * 65] + fronts([pair]) + changes([pair], 16 if is_whole else 4)
        faults = []
        for octets in damaged:
            with open(replica.store(), "wb") as file:
                file.write(octets)
            fault = start_fault(replica.command(False))
            if fault:
                faults.append(f"stored view {octets.hex()}: {fault}")
    return len(damaged), faults


def start_fault(command: list[str]) -> str:
    """What is wrong with a start, which is ended as soon as it recovers: it has a view, and nobody to recover from."""
    with subprocess.Popen(command, stdin=subprocess.DEVNULL, stdout=subprocess.DEVNULL, stderr=subprocess.PIPE, text=True) as process:
        silence = threading.Timer(PATIENCE, process.kill)
        silence.start()
        try:
            said = ""
            for line in process.stderr:
                if RECOVERS.fullmatch(line):
                    return ""
                # It may find out first that the others can't be reached.
                if line.rstrip("\n") != UNPROVED and not UNREACHED.fullmatch(line):
                    said += line
            status = process.wait()
            if status == -signal.SIGKILL:
                return f"neither recovers nor ends within {PATIENCE} s: {said[-500:]!r}"
            return "" if status == 1 and re.fullmatch(REFUSALS, said.removesuffix("\n")) else f"status {status}, {said[-500:]!r}"
        finally:
            silence.cancel()
            process.kill()


def frame(kind: int, *numbers: int, rest: bytes = b"") -> bytes:
    """A frame of replica 1, its body numbers of eight octets and then the rest."""
    body = bytes([2]) + NUMBER.to_bytes(6, "big") + bytes([kind, 1]) + b"".join(number.to_bytes(8, "big") for number in numbers) + rest
    return len(body).to_bytes(4, "big") + body


def proper_frames() -> list[bytes]:
    """A frame of each kind; the records are an add and a no-op."""
    update = ldap.add("dc=example,dc=com", [("objectClass", ["domain"]), ("dc", ["example"])])
    records = [bytes([home]) + b"".join(number.to_bytes(8, "big") for number in (life, 7, 1)) + len(payload).to_bytes(4, "big") + payload
               for home, life, payload in ((2, 1, update), (0, 0, b""))]
    log = len(records).to_bytes(4, "big") + b"".join(records)
    return [frame(1, 1, 1, 0, rest=records[0]), frame(2, 0, 1), frame(3, 0, 0), frame(4, 1), frame(5, 1, 0, 0, rest=log), frame(6, 1, 1, rest=log), frame(9, 5),
            frame(10, 1, 5, rest=b"\1" + (1).to_bytes(8, "big") + log), frame(11, 0, 0), frame(12, 1, 2, 0, rest=log)]


def frames(is_whole: bool) -> tuple[int, list[str]]:
    """Gives each damaged frame to a replica on a connection of its own, behind a greeting, and each damaged greeting: the replica closes it, and answers
    clients as before."""
    faults = []
    with tempfile.TemporaryDirectory() as folder:
        cluster = Cluster(folder, NUMBER)
        greeting = cluster.greeting(1)
        proper = proper_frames()
        behind = [bytes.fromhex("0ffffffd"), bytes.fromhex("ffffffff")] + fronts(proper) + changes(proper, 16 if is_whole else 2)
        damaged = [greeting + octets for octets in behind] + fronts([greeting]) + changes([greeting], 16 if is_whole else 2)
        replica = cluster.replicas[0]
        replica.start(True)
        try:
            for place, octets in enumerate(damaged):
                fault = connection_fault(cluster.ports[0], octets, over_limit=place < 2)
                if not fault and (place % 50 == 0 or place == len(damaged) - 1):
                    fault = client_fault(cluster.ldap_port(0))
                if fault:
                    faults.append(f"frame {octets.hex()}: {fault}")
                if replica.process.poll() is not None:
                    faults.append(f"frame {octets.hex()}: the replica ended with status {replica.process.poll()}, {replica.lines[-5:]}")
                    replica.start(False)
        finally:
            replica.kill()
    return len(damaged), faults


def connection_fault(port: int, octets: bytes, over_limit: bool) -> str:
    """What is wrong with how a connection ends on which these octets are sent. One over the limit is closed by the replica though more may come."""
    try:
        with socket.create_connection((HOST, port), PATIENCE) as peer:
            peer.sendall(octets)
            if not over_limit:
                peer.shutdown(socket.SHUT_WR)
            while peer.recv(65536):
                pass
    except (ConnectionResetError, BrokenPipeError):
        return ""
    except OSError as error:
        # Where the replica has closed before this end does, the system says that this end is no longer connected.
        return "" if error.errno == errno.ENOTCONN else f"the connection isn't closed: {error}"
    return ""


def client_fault(port: int) -> str:
    """What is wrong with how a client is answered: it may be told that there is no state now (52), and nothing else."""
    try:
        client = ldap.Client(HOST, port, PATIENCE)
        code, _, _, _ = client.ask(ldap.search("", 0, ldap.present("objectClass")))
        client.close()
    except (OSError, ldap.Closed) as error:
        return f"a client isn't answered: {error}"
    return "" if code in (0, 52) else f"a client is answered by {code}"
