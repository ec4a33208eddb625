"""Tests of `tools/load`, `tools/backup` and `tools/status` over replicas that are played here, so that each code comes when it is wanted. Those over real replicas are in tests/tools."""
from __future__ import annotations

import http.server
import os
import pty
import re
import select
import socket
import subprocess
import threading
import time
from collections.abc import Callable

import ldap_client as ldap
from replicas import MANAGER, PASSWORD, SUFFIX, TOP, free_ports, program
from serving import HOST

LOAD, BACKUP, STATUS = (os.path.join(TOP, "tools", name) for name in ("load", "backup", "status"))
OPERATIONS = {0x60: 0x61, 0x68: 0x69}
CLOSES = -1


class Played:
    """A replica that answers each bind with 0, and each add by a function of its name and of how often it came: a result code, or an end of the connection. An add that asks for its number gets 77."""

    def __init__(self, answer: Callable[[str, int], int], referral: str | None = None, most: int = 1000):
        self.answer = answer
        self.referral = referral
        # How many sessions there may be, and how many there were as each began.
        self.most = most
        self.sessions: list[int] = []
        self.came: dict[str, int] = {}
        self.listener = socket.create_server((HOST, 0))
        self.uri = f"ldap://{HOST}:{self.listener.getsockname()[1]}"
        threading.Thread(target=self._serve, daemon=True).start()

    def _serve(self) -> None:
        while True:
            try:
                stream, _ = self.listener.accept()
            except OSError:
                return
            if len(self.sessions) >= self.most:
                stream.close()
                continue
            self.sessions.append(len(self.sessions) + 1)
            threading.Thread(target=self._session, args=(stream,), daemon=True).start()

    def _session(self, stream: socket.socket) -> None:
        reader = ldap.Client.__new__(ldap.Client)
        reader.socket, reader.rest, reader.at, reader.number = stream, b"", 0, 0
        while True:
            try:
                number, tag, fields, controls = reader.receive()
                code = self._code(tag, fields)
                if code == CLOSES:
                    stream.close()
                    return
                uris = ldap.element(0xA3, ldap.text(self.referral)) if code == 10 else b""
                result = ldap.element(OPERATIONS[tag], ldap.integer(code, 0x0A) + ldap.text("") + ldap.text("") + uris)
                shown = ldap.element(0xA0, ldap.control(ldap.READ, "77")) if ldap.READ in controls else b""
                stream.sendall(ldap.element(0x30, ldap.integer(number) + result + shown))
            except (OSError, ldap.Closed, KeyError):
                return

    def _code(self, tag: int, fields: list[tuple[int, bytes]]) -> int:
        if tag != 0x68:
            return 0
        name = fields[0][1].decode().partition(",")[0]
        self.came[name] = self.came.get(name, 0) + 1
        return self.answer(name, self.came[name])

    def close(self) -> None:
        self.listener.close()


def records_in(folder: str, count: int, name: str = "items.ldif", long: int | None = None) -> str:
    """An LDIF file of records cn=1, cn=2 and so on, five lines each, with a comment in the first one; one of them is longer than a message may be."""
    path = os.path.join(folder, name)
    with open(path, "w", encoding="utf-8") as file:
        for number in range(1, count + 1):
            value = "x" * 4_200_000 if number == long else str(number)
            file.write(f"dn: cn={number},{SUFFIX}\n{'# a comment' if number == 1 else 'cn: ' + str(number)}\nobjectClass: item\nlabel: {value}\n\n")
    return path


def loaded(folder: str, path: str, *words: str) -> subprocess.CompletedProcess:
    """What `tools/load` says, run from a folder that isn't the repository's."""
    secret = os.path.join(folder, "password")
    with open(secret, "w", encoding="utf-8") as file:
        file.write(PASSWORD + "\n")
    return subprocess.run([LOAD, path, *words, "--manager", MANAGER, "--password-file", secret], cwd=folder, stdout=subprocess.PIPE, stderr=subprocess.PIPE, text=True,
                          env={**os.environ, "DIRD": program()}, timeout=120)


def a_load_names_what_was_added_beyond_a_refusal(folder: str) -> None:
    """Records 2 and 5 are refused while all are under way: it says so, with lines, and which others are added."""
    replica = Played(lambda name, _: 65 if name in ("cn=2", "cn=5") else 0)
    path, refused = records_in(folder, 30), os.path.join(folder, "refused.ldif")
    stopped = loaded(folder, path, replica.uri, "--refused", refused, "--connections", "1", "--ahead", "6")
    assert stopped.returncode == 1, stopped
    assert re.match(r"5 records added, 2 refused, 23 left, in ", stopped.stdout), stopped
    for piece in ("record 2, line 6 (cn=2,", "65 (objectClassViolation)", "record 5, line 21 (cn=5,", "records 3 to 4 and 6 to 7 were under way and are added", "correct records 2 and 5", "--from 2:"):
        assert piece in stopped.stderr, (piece, stopped.stderr)
    with open(refused, encoding="utf-8") as file:
        text = file.read()
    assert text.startswith("version: 1\n\n# record 2, line 6 of items.ldif: 65 (objectClassViolation)\ndn: cn=2,") and text.count("dn: ") == 2, text
    assert text.endswith(f"dn: cn=5,{SUFFIX}\ncn: 5\nobjectClass: item\nlabel: 5\n"), text
    replica.close()
    # The file of refused records is LDIF, and is loaded like any other.
    other = Played(lambda name, _: 0)
    assert re.fullmatch(r"2 records added, 0 refused, 0 left, in \d+\.\d s; the last update is 77\n", loaded(folder, refused, other.uri).stdout), text
    other.close()
    pipe = os.path.join(folder, "pipe")
    os.mkfifo(pipe)
    piped = loaded(folder, pipe, other.uri, "--refused", refused)
    assert piped.returncode == 1 and "pipe is no regular file" in piped.stderr, piped
    writer = subprocess.Popen(["sh", "-c", 'cat "$0" > "$1"', path, pipe])
    bad = Played(lambda name, _: 65 if name == "cn=30" else 0)
    piped = loaded(folder, pipe, bad.uri)
    writer.wait(60)
    bad.close()
    assert piped.stdout.startswith("29 records added, 1 refused, 0 left") and "record 30 (cn=30," in piped.stderr, piped
    own = loaded(folder, refused, other.uri, "--refused", refused)
    assert own.returncode == 1 and "is the file that is loaded" in own.stderr, own


def a_load_from_a_record_passes_over_what_is_there(folder: str) -> None:
    """What is there already counts as present with --from, and is refused without."""
    replica = Played(lambda name, _: 68 if name in ("cn=4", "cn=5", "cn=7") else 0)
    path = records_in(folder, 8)
    rest = loaded(folder, path, replica.uri, "--from", "3")
    assert rest.returncode == 0 and rest.stdout.startswith("3 records added, 3 there already, 0 refused, 0 left"), rest
    assert "records 4 to 5 and 7 were there already" in rest.stderr and "cn=2" not in replica.came, (rest, replica.came)
    whole = loaded(folder, path, replica.uri, "--go-on")
    assert whole.returncode == 1 and whole.stdout.startswith("5 records added, 3 refused, 0 left"), whole
    assert "load it again with --from 4 --go-on" in whole.stderr, whole
    outside = loaded(folder, path, replica.uri, "--from", "9")
    assert outside.returncode == 1 and "has records 1 to 8" in outside.stderr, outside
    replica.close()


def a_load_asks_another_replica(folder: str) -> None:
    """A closed port, 52, 80 and an end of the connection lead to the next replica, each told once; a record that was made behind an 80 counts as added."""
    closed = f"ldap://{HOST}:{free_ports(1)[0]}"
    path = records_in(folder, 6)
    for first, why in ((lambda name, _: 52, "52 (unavailable)"), (lambda name, _: 80 if name == "cn=3" else 0, "80 (other)"), (lambda name, _: CLOSES if name == "cn=3" else 0, "it closed the connection")):
        one, two = Played(first), Played(lambda name, count: 68 if name == "cn=3" else 0)
        told = loaded(folder, path, closed, one.uri, two.uri, "--connections", "1", "--ahead", "1", *(["--from", "1"] if why.startswith("52") else []))
        assert told.returncode == 0 and " 0 refused, 0 left" in told.stdout, told
        assert told.stderr.count(f"{closed}: connection refused: nothing listens there; asking {one.uri}") == 1, told
        assert told.stderr.count(f"{one.uri}: {why}; asking {two.uri} from record {1 if why.startswith('52') else 3} on") == 1, told
        assert "records a second" not in told.stderr and "of 6 records" not in told.stderr, "progress is for terminals"
        one.close()
        two.close()
    # One that says 52 for a while is told once.
    slow = Played(lambda name, count: 52 if count < 8 else 0)
    told = loaded(folder, path, slow.uri, "--connections", "1", "--ahead", "1")
    assert told.returncode == 0 and told.stderr.count("52 (unavailable); asking it again from record 1 on") == 1, told
    slow.close()


def a_load_uses_several_connections(folder: str) -> None:
    """A record that is answered with 32 before an earlier one is answered is sent again; one that is refused ends the load, and what was under way elsewhere is named; a replica
    that takes no further connection is asked over those that it took."""
    path = records_in(folder, 40)

    def answer(name: str, count: int) -> int:
        if name == "cn=4":
            time.sleep(0.5)
        return 32 if name == "cn=5" and count == 1 else 0

    replica = Played(answer)
    run = loaded(folder, path, replica.uri)
    assert re.fullmatch(r"40 records added, 0 refused, 0 left, in \d+\.\d s; the last update is 77\n", run.stdout), run
    assert replica.came["cn=5"] == 2 and max(replica.sessions) > 8, (replica.came, replica.sessions)
    replica.close()
    missing = Played(lambda name, _: 32 if name == "cn=5" else 0)
    run = loaded(folder, path, missing.uri, "--go-on")
    assert run.returncode == 1 and run.stdout.startswith("39 records added, 1 refused, 0 left") and "record 5, line 21 (cn=5," in run.stderr, run
    missing.close()

    def refuses(name: str, _: int) -> int:
        time.sleep(0.5 if name == "cn=9" else 0.1)
        return 65 if name == "cn=3" else 0

    bad = Played(refuses)
    run = loaded(folder, path, bad.uri, "--connections", "8", "--ahead", "1")
    added, left = re.match(r"(\d+) records added, 1 refused, (\d+) left", run.stdout).groups()
    assert run.returncode == 1 and int(added) + int(left) == 39 and int(added) == sum(bad.came.values()) - 1, (run, bad.came)
    assert "were under way and are added" in run.stderr and "--from 3:" in run.stderr, run
    bad.close()
    few = Played(lambda name, _: 0, most=3)
    run = loaded(folder, path, few.uri)
    assert run.returncode == 0 and run.stdout.startswith("40 records added, 0 refused, 0 left") and max(few.sessions) == 3, (run, few.sessions)
    few.close()


def a_load_refuses_what_is_too_long(folder: str) -> None:
    """A record over a message's length is refused with its line, and never sent; the others are loaded."""
    replica = Played(lambda name, _: 0)
    path = records_in(folder, 5, long=3)
    stopped = loaded(folder, path, replica.uri)
    assert stopped.returncode == 1 and stopped.stdout.startswith("2 records added, 1 refused, 2 left"), stopped
    assert re.search(r"record 3, line 11 \(cn=3,.*\): its request takes 42\d{5} octets, and a replica reads at most 4194304: it is not sent", stopped.stderr), stopped.stderr
    gone_on = loaded(folder, path, replica.uri, "--go-on")
    assert gone_on.returncode == 1 and gone_on.stdout.startswith("4 records added, 1 refused, 0 left"), gone_on
    assert "cn=3" not in replica.came, replica.came
    replica.close()


def a_load_shows_its_progress_on_a_terminal(folder: str) -> None:
    """Records a second and the time that is left, once a second."""
    def answer(name: str, _: int) -> int:
        time.sleep(0.1)
        return 0

    replica = Played(answer)
    path, secret = records_in(folder, 25), os.path.join(folder, "password")
    with open(secret, "w", encoding="utf-8") as file:
        file.write(PASSWORD + "\n")
    ours, its = pty.openpty()
    process = subprocess.Popen([LOAD, path, replica.uri, "--connections", "1", "--manager", MANAGER, "--password-file", secret], cwd=folder, stdout=subprocess.DEVNULL, stderr=its, env={**os.environ, "DIRD": program()})
    os.close(its)
    shown = b""
    while select.select([ours], [], [], 60)[0]:
        try:
            more = os.read(ours, 4096)
        except OSError:
            break
        if not more:
            break
        shown += more
    assert process.wait(60) == 0
    assert re.search(rb"\d+ of 25 records, \d+ a second, \d+ s left", shown), shown
    replica.close()


def messages_name_what_to_do(folder: str) -> None:
    """No bare number of an error: address, cause and remedy."""
    closed = f"ldap://{HOST}:{free_ports(1)[0]}"
    told = subprocess.run([BACKUP, closed, SUFFIX, "b.ldif"], cwd=folder, stdout=subprocess.PIPE, stderr=subprocess.PIPE, text=True, env={**os.environ, "DIRD": program()}, timeout=60)
    assert told.returncode == 1 and told.stderr.startswith(f"{closed}: connection refused: nothing listens there; name a replica that runs"), told
    for words, piece in (((LOAD, "none.ldif", closed, "--manager", MANAGER, "--password-file", "none"), "none.ldif: No such file or directory"),
                         ((LOAD, "none.ldif", "ldaps://a", "--manager", MANAGER, "--password-file", "none"), "ldaps://a is no ldap:// URI"),
                         ((BACKUP, "a:389", SUFFIX, "b.ldif"), "a:389 is no ldap:// URI"),
                         ((BACKUP, "ldap://no-such-host.invalid", SUFFIX, "b.ldif"), "ldap://no-such-host.invalid: no host has this name")):
        told = subprocess.run(words, cwd=folder, stdout=subprocess.PIPE, stderr=subprocess.PIPE, text=True, env={**os.environ, "DIRD": program()}, timeout=60)
        assert told.returncode == 1 and piece in told.stderr and "Errno" not in told.stderr and "Traceback" not in told.stderr, told


def tools_find_the_program(folder: str) -> None:
    """By DIRD, then beside themselves, then in the PATH; without one they say what to do."""
    tools, elsewhere = os.path.join(folder, "tools"), os.path.join(folder, "elsewhere")
    for name in (tools, elsewhere):
        os.makedirs(name)
    for name in ("load", "backup", os.path.join("..", "python", "transfer.py"), os.path.join("..", "python", "ldap_client.py")):
        source = os.path.join(TOP, "tools", name)
        with open(source, "rb") as file, open(os.path.join(tools, os.path.basename(name)), "wb") as copy:
            copy.write(file.read())
        os.chmod(os.path.join(tools, os.path.basename(name)), 0o755)

    def stand_in(where: str, name: str) -> str:
        """A program that says its name, and fails."""
        path = os.path.join(where, "dird")
        with open(path, "w", encoding="utf-8") as file:
            file.write(f"#!/bin/sh\necho {name} >&2\nexit 1\n")
        os.chmod(path, 0o755)
        return path

    path, secret = records_in(folder, 1), os.path.join(folder, "secret")
    with open(secret, "w", encoding="utf-8") as file:
        file.write(PASSWORD + "\n")

    def says(**env: str) -> str:
        words = [os.path.join(tools, "load"), path, f"ldap://{HOST}:1", "--manager", MANAGER, "--password-file", secret]
        kept = {name: value for name, value in os.environ.items() if name != "DIRD"}
        run = subprocess.run(words, cwd="/", stdout=subprocess.PIPE, stderr=subprocess.PIPE, text=True, env={**kept, **env}, timeout=60)
        assert run.returncode == 1, run
        return run.stderr

    path_without = os.pathsep.join(it for it in os.environ["PATH"].split(os.pathsep) if not os.path.exists(os.path.join(it, "dird")))
    assert "no program dird: set DIRD" in says(PATH=path_without)
    stand_in(elsewhere, "of the PATH")
    path_with = f"{elsewhere}:{path_without}"
    assert says(PATH=path_with) == f"{path}: of the PATH\n"
    stand_in(tools, "beside")
    assert says(PATH=path_with) == f"{path}: beside\n"
    other = os.path.join(folder, "other")
    os.makedirs(other)
    named = stand_in(other, "of DIRD")
    assert says(PATH=path_with, DIRD=named) == f"{path}: of DIRD\n"
    assert says(PATH=path_with, DIRD="/none") == "DIRD=/none: no such program\n"


class Monitored:
    """A replica's address for monitors, with these figures."""

    def __init__(self, ready: str, role: str, view: int, update: int):
        roles = "".join(f'dird_role{{role="{it}"}} {int(it == role)}\n' for it in ("primary", "backup", "changing", "recovering"))
        pages = {"/ready": f"{ready}\n", "/metrics": f'# HELP x\n{roles}dird_view {view}\ndird_last_update {update}\ndird_sessions 4\ndird_build_info{{version="9.9",proved="yes"}} 1\n'}

        class Handler(http.server.BaseHTTPRequestHandler):
            def do_GET(self) -> None:
                octets = pages[self.path].encode()
                self.send_response(200 if ready in ("primary", "backup") or self.path == "/metrics" else 503)
                self.send_header("Content-Length", str(len(octets)))
                self.end_headers()
                self.wfile.write(octets)

            def log_message(self, *_: object) -> None:
                pass

        self.server = http.server.ThreadingHTTPServer((HOST, 0), Handler)
        self.address = f"{HOST}:{self.server.server_port}"
        threading.Thread(target=self.server.serve_forever, daemon=True).start()


# What each replica shows (what `/ready` says, role, view, last update; none is down), the status, and the verdict.
LEADS, FOLLOWS, DOWN = ("primary", "primary", 3, 90), ("backup", "backup", 3, 88), None
VERDICTS: list[tuple[list[tuple[str, str, int, int] | None], int, str]] = [
    ([LEADS, FOLLOWS, FOLLOWS], 0, "a majority agrees: 3 of 3 serve in view 3, the primary is "),
    ([DOWN, FOLLOWS, LEADS], 0, "a majority agrees: 2 of 3 serve in view 3, the primary is "),
    ([LEADS, DOWN, DOWN], 1, "no majority agrees: 1 of 3 serve"),
    ([LEADS, ("backup", "backup", 2, 80), DOWN], 1, "no majority agrees: 2 of 3 serve, 1 of them in view 3"),
    ([FOLLOWS, FOLLOWS, ("recovering", "recovering", 3, 0)], 1, "no majority agrees: 2 of 3 serve in view 3, and none of these is the primary"),
    ([("no majority", "primary", 3, 90), ("primary", "primary", 4, 95), ("backup", "backup", 4, 95)], 0, "a majority agrees: 2 of 3 serve in view 4, the primary is "),
    ([("no majority", "primary", 3, 90), FOLLOWS, DOWN], 1, "no majority agrees: 1 of 3 serve"),
    ([("stuck", "primary", 3, 90), FOLLOWS, FOLLOWS], 1, "no majority agrees: 2 of 3 serve in view 3, and none of these is the primary"),
    ([LEADS, FOLLOWS, DOWN, DOWN, DOWN], 1, "no majority agrees: 2 of 5 serve"),
    ([LEADS, FOLLOWS, FOLLOWS, DOWN, DOWN], 0, "a majority agrees: 3 of 5 serve in view 3, the primary is "),
]


def a_status_is_that_of_a_majority(_folder: str) -> None:
    """Each row has its status and its verdict; the lines have role, view, update, lag, sessions and proved."""
    for shown, status, verdict in VERDICTS:
        replicas = [it and Monitored(*it) for it in shown]
        addresses = [it.address if it else f"{HOST}:{free_ports(1)[0]}" for it in replicas]
        run = subprocess.run([STATUS, *addresses], stdout=subprocess.PIPE, stderr=subprocess.PIPE, text=True, timeout=60)
        lines = run.stdout.splitlines()
        assert run.returncode == status and lines[-1].startswith(verdict) and len(lines) == len(shown) + 2, (shown, run)
        newest = max(it[3] for it in shown if it)
        for line, address, it in zip(lines[1:], addresses, shown):
            if it is None:
                assert line.startswith(f"{address}  connection refused"), line
            else:
                role = it[1] if it[0] == it[1] else f"{it[1]} ({it[0]})"
                assert re.split(r"  +", line) == [address, role, str(it[2]), str(it[3]), str(newest - it[3]), "4", "9.9", "yes"], line
        for replica in replicas:
            if replica:
                replica.server.shutdown()
                replica.server.server_close()


TESTS = (a_status_is_that_of_a_majority, a_load_names_what_was_added_beyond_a_refusal, a_load_from_a_record_passes_over_what_is_there, a_load_asks_another_replica, a_load_uses_several_connections, a_load_refuses_what_is_too_long,
         a_load_shows_its_progress_on_a_terminal, messages_name_what_to_do, tools_find_the_program)
