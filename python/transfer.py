"""Entries into a directory and out of it, through its replicas: loads the records of LDIF files by adds, and reads one state for a backup. The program reads and writes LDIF
(`dird import`, `dird export`)."""
from __future__ import annotations

import bisect
import collections
import os
import re
import select
import shutil
import socket
import subprocess
import sys
import time
from collections.abc import Callable

FOLDER = os.path.dirname(os.path.realpath(__file__))
import ldap_client as ldap
from ldap_client import Closed

# For how many seconds nothing may go forward before a tool ends, and for how many a replica may be silent.
PATIENCE = 60.0
SILENCE = 20.0
# The most octets of a message that a replica reads.
LONGEST = 4_194_304
# The most ranges of records that a line names.
MOST_RANGES = 12

SUCCESS, REFERRAL, BUSY, UNAVAILABLE, OTHER, NO_SUCH_OBJECT, EXISTS = 0, 10, 51, 52, 80, 32, 68
# What a replica answers that can't make the update now, or doesn't know whether it was made: another one is asked.
ELSEWHERE = (BUSY, UNAVAILABLE, OTHER)

# The codes of RFC 4511, section 4.1.9, that an add or a search may be answered with.
NAMES = {
    1: "operationsError", 2: "protocolError", 10: "referral", 16: "noSuchAttribute", 17: "undefinedAttributeType", 18: "inappropriateMatching",
    19: "constraintViolation", 20: "attributeOrValueExists", 21: "invalidAttributeSyntax", 32: "noSuchObject", 34: "invalidDNSyntax",
    49: "invalidCredentials", 50: "insufficientAccessRights", 51: "busy", 52: "unavailable", 53: "unwillingToPerform", 64: "namingViolation",
    65: "objectClassViolation", 68: "entryAlreadyExists", 80: "other",
}


def code_name(code: int) -> str:
    """A result code with its name."""
    return f"{code} ({NAMES[code]})" if code in NAMES else str(code)


class Failure(Exception):
    """Why it can't go on."""


class Refused(Failure):
    """A record is refused, and that is the end."""


class Behind(Failure):
    """A replica hasn't made the update yet that its answer has to show."""


# The names of the tools where they are installed.
INSTALLED = {"load": "dird-load", "backup": "dird-backup", "status": "dird-status", "init": "dird-init", "slapd_schema": "dird-slapd-schema"}


def text_of_help(text: str) -> str:
    """A tool's own text, with the names by which tools are called where they are installed."""
    is_installed = os.path.basename(sys.argv[0]).startswith("dird-")
    return re.sub(r"tools/(\w+)", lambda found: INSTALLED.get(found[1], found[0]) if is_installed else found[0], text)


def reason_of(error: Exception) -> str:
    """Why a replica gives no answer, for who started a tool."""
    if isinstance(error, ConnectionRefusedError):
        return "connection refused: nothing listens there"
    if isinstance(error, socket.gaierror):
        return "no host has this name"
    if isinstance(error, (socket.timeout, TimeoutError)):
        return "no answer in time"
    if isinstance(error, Closed):
        return {"closed": "it closed the connection", "timed out": "no answer in time"}.get(str(error), str(error))
    return getattr(error, "strerror", None) or str(error)


def program() -> str:
    """The program: that of the environment's DIRD; else the one beside the tool, which in a checkout is built where it is missing or stale; else that of the PATH."""
    if "DIRD" in os.environ:
        if shutil.which(os.environ["DIRD"]) is None:
            raise Failure(f"DIRD={os.environ['DIRD']}: no such program")
        return os.environ["DIRD"]
    called = os.path.dirname(os.path.abspath(sys.argv[0]))
    for folder in (called, FOLDER, os.path.join(FOLDER, "..", "..", "bin")):
        if os.access(os.path.join(folder, "dird"), os.X_OK):
            return os.path.join(folder, "dird")
    build = os.path.join(os.path.dirname(FOLDER), "tools", "program")
    if os.path.exists(build):
        run = subprocess.run([build, "dird"], check=False, stdout=subprocess.PIPE, text=True)
        if run.returncode == 0:
            return run.stdout.strip()
    found = shutil.which("dird")
    if found is None:
        raise Failure("no program dird: set DIRD to its path, or put it beside this tool or into a folder of the PATH")
    return found


def run_program(command: str, **options) -> subprocess.CompletedProcess:
    """Runs a command of the program; standard error is read."""
    name = program()
    try:
        return subprocess.run([name, command], stdout=subprocess.PIPE, stderr=subprocess.PIPE, text=True, check=False, **options)
    except OSError as error:
        raise Failure(f"{name}: {reason_of(error)}") from error


def place_of(uri: str) -> tuple[str, int]:
    """The host and the port of an LDAP URI (RFC 4516); 389, where it names none."""
    found = re.fullmatch(r"ldap://(\[[^\]]+\]|[^/:]+)(?::(\d+))?/?.*", uri)
    if found is None:
        raise Failure(f"{uri} is no ldap:// URI, as ldap://10.0.0.1:389; ldaps:// isn't spoken here: name a replica's own address for clients")
    return found[1].strip("[]"), int(found[2] or 389)


def session(uri: str, manager: str | None, password: str, silence: float = SILENCE) -> ldap.Client:
    """A session at a replica, bound unless there is no manager."""
    client = ldap.Client(*place_of(uri), silence)
    if manager is not None:
        code = client.bind(manager, password)
        if code in ELSEWHERE:
            raise Closed(code_name(code))
        if code != SUCCESS:
            raise Failure(f"{uri}: bind as {manager}: {code_name(code)}")
    return client


def record_of(message: bytes) -> str:
    """The name of the entry that an add adds."""
    operation = ldap.elements(ldap.elements(message)[0][1])[1][1]
    return ldap.elements(operation)[0][1].decode("utf-8", "replace")


def numbered(message: bytes) -> bytes:
    """An add whose answer has its update's number."""
    content = ldap.elements(message)[0][1]
    return ldap.element(0x30, content + ldap.element(0xA0, ldap.control(ldap.READ, "0"))) if len(message) <= LONGEST - 64 else message


def ranges_of(numbers: list[int]) -> str:
    """Records by number, in words: `record 3`, `records 3 to 5 and 8`."""
    parts: list[list[int]] = []
    for number in numbers:
        if parts and parts[-1][-1] == number - 1:
            parts[-1] = [parts[-1][0], number]
        else:
            parts.append([number])
    words = [" to ".join(str(it) for it in part) for part in parts[:MOST_RANGES]]
    if len(parts) > MOST_RANGES:
        words.append(f"others up to {numbers[-1]}")
    text = words[0] if len(words) == 1 else f"{', '.join(words[:-1])} and {words[-1]}"
    return f"record{'s' if len(numbers) > 1 else ''} {text}"


class Records:
    """Where the records of an LDIF file are in it; the file is read when that is asked for."""

    def __init__(self, path: str, count: int):
        self.path = path
        self.count = count
        self.places: list[tuple[int, int, int]] | None = None

    def _places(self) -> list[tuple[int, int, int]]:
        """Line, first octet and end of each record; none where they aren't as many as the program found."""
        if self.places is None:
            found: list[tuple[int, int, int]] = []
            at, number, inside = 0, 0, False
            # What comes through a pipe is gone.
            with open(self.path if os.path.isfile(self.path) else os.devnull, "rb") as file:
                for line in file:
                    number += 1
                    is_empty = line.rstrip(b"\n") in (b"", b"\r")
                    if not inside and line[:3].lower() == b"dn:":
                        found.append((number, at, at))
                        inside = True
                    at += len(line)
                    inside = inside and not is_empty
                    if inside:
                        found[-1] = (*found[-1][:2], at)
            self.places = found if len(found) == self.count else []
        return self.places

    def line(self, index: int) -> str:
        """The line of a record, in words."""
        return f", line {self._places()[index][0]}" if self._places() else ""

    def text(self, index: int) -> bytes:
        """The lines of a record; none where its place isn't known."""
        if not self._places():
            return b""
        _, first, end = self._places()[index]
        with open(self.path, "rb") as file:
            file.seek(first)
            return file.read(end - first)


def key_of(name: str) -> str:
    """A name as names are compared here: without case, and without spaces around what parts it (RFC 4514). Names that are one by their values' rules alone have two keys."""
    rdns = re.findall(r"(?:\\.|[^,\\])+", name)
    return ",".join(re.sub(r" *([=+]) *", r"\1", it.strip().lower()) for it in rdns)


class Link:
    """A connection of a load, and the records that were sent over it and have no answer yet, in order."""

    def __init__(self, client: ldap.Client):
        self.client = client
        self.under_way: collections.deque[int] = collections.deque()


class Loading:
    """Adds that are sent, some ahead of their answers and over several connections, to whichever replica takes updates.

    Records leave in their order. One whose superior, or whose own name, is under way goes behind it over the same connection, which a replica answers in order. One that is answered
    with noSuchObject before all earlier ones are answered is sent once more when they are. The last record is sent alone, so that its update's number is the greatest."""

    def __init__(self, messages: list[bytes], uris: list[str], manager: str, password: str, goes_on: bool, tell: Callable[[str], None], records: Records | None = None,
                 skips: bool = False, refused_file: str | None = None):
        self.messages = [*messages[:-1], *(numbered(it) for it in messages[-1:])]
        # The number of the last record's update, once it is answered.
        self.number = ""
        self.uris = list(uris)
        self.manager = manager
        self.password = password
        self.goes_on = goes_on
        self.tell = tell
        self.records = records
        # Whether an entry that is there already counts as present, and isn't refused.
        self.skips = skips
        self.refused_file = refused_file
        # How many records from the first on have an answer, and which ones beyond.
        self.done = 0
        self.answered: set[int] = set()
        # How many records have an answer, and which is the next to be sent.
        self.settled = 0
        self.next = 0
        # Those that are sent again once all earlier ones are answered.
        self.again: set[int] = set()
        # Where records are under way, by number and by name.
        self.links: list[Link] = []
        self.named: dict[str, tuple[Link, int]] = {}
        self.added = 0
        self.present: list[int] = []
        self.refused: list[int] = []
        # Those beyond the first refused one that were under way and were added, or got no answer.
        self.beyond: list[int] = []
        self.unanswered: list[int] = []
        # Those that were sent over connections that broke, and may have been made without an answer.
        self.unsure: set[int] = set()
        # The last reason of each replica to take no update, and whether it was told since something went forward.
        self.reasons: dict[str, str] = {}

    def run(self, first: int, ahead: int, connections: int = 1) -> None:
        """Sends all from one on, over so many connections, this many ahead of the answers on each; raises at the first refused one, once what was under way is answered."""
        self.done = first
        moved_at, tried = time.monotonic(), 0
        while self.done < len(self.messages):
            before = self.settled
            uri = self.uris[tried % len(self.uris)]
            why, referred = "", []
            try:
                why, referred = self._through(uri, ahead, connections)
            except (OSError, Closed) as error:
                why = reason_of(error)
            if self.refused and not self.goes_on:
                raise Refused(f"{ranges_of(self.refused)} refused")
            if self.settled > before:
                moved_at = time.monotonic()
                self.reasons.clear()
            if self.done == len(self.messages):
                return
            if referred:
                self.uris = [*referred, *(it for it in self.uris if it not in referred)]
                tried = 0
            else:
                tried += 1
                self._tell_retry(uri, why, self.uris[tried % len(self.uris)])
            if time.monotonic() - moved_at > PATIENCE:
                reasons = "; ".join(f"{uri}: {why}" for uri, why in self.reasons.items())
                raise Failure(f"no replica took record {self.done + 1} for {PATIENCE:.0f} seconds ({reasons or 'each referred to another'}): more than half have to run; name all of them")
            if self.settled == before:
                time.sleep(0.2)

    def _tell_retry(self, uri: str, why: str, other: str) -> None:
        """Tells that a replica takes no update and another is asked: once for each reason until something goes forward."""
        if self.reasons.get(uri) != why:
            self.reasons[uri] = why
            self.tell(f"{uri}: {why}; {'asking ' + other if other != uri else 'asking it again'} from record {self.done + 1} on")

    def _through(self, uri: str, ahead: int, connections: int) -> tuple[str, list[str]]:
        """Sends what is left through one replica, until it is done, or one is refused, or the replica takes no more: why, and the URIs that it refers to."""
        if self._refuses_long():
            return "", []
        self.links = [Link(session(uri, self.manager, self.password))]
        self.next = self.done
        try:
            while True:
                self._send_all(ahead)
                waiting = [it for it in self.links if it.under_way]
                if not waiting:
                    if not self._goes_forward() or self._refuses_long():
                        return "", []
                    continue
                for link in self._readable(waiting):
                    ended = self._take(uri, link)
                    if ended is not None:
                        return ended
                connections = self._opened(uri, connections)
        finally:
            left = {index for link in self.links for index in link.under_way}
            if not self._goes_forward():
                self.unanswered = sorted(index + 1 for index in left)
            self.unsure |= left
            for link in self.links:
                link.client.close()
            self.links, self.named = [], {}

    def _opened(self, uri: str, connections: int) -> int:
        """Opens the other connections to a replica that takes updates; how many there may be, which is fewer where it takes no more."""
        while len(self.links) < min(connections, len(self.messages) - self.done) and self._goes_forward():
            try:
                self.links.append(Link(session(uri, self.manager, self.password)))
            except (OSError, Closed):
                return len(self.links)
        return connections

    def _readable(self, links: list[Link]) -> list[Link]:
        """Those that have an answer, or have ended; waits for one."""
        ready = [it for it in links if it.client.has_message()]
        if ready or len(links) == 1:
            return ready or links
        found, _, _ = select.select([it.client.socket for it in links], [], [], SILENCE)
        if not found:
            raise Closed("timed out")
        return [it for it in links if it.client.socket in found]

    def _send_all(self, ahead: int) -> None:
        """Sends the next records, as many as may be under way."""
        while self._goes_forward():
            if self.done in self.again:
                self.again.discard(self.done)
                self._send(self.links[0], self.done)
            while self.next in self.answered or self.next < self.done:
                self.next += 1
            index = self.next
            if index >= len(self.messages) or len(self.messages[index]) > LONGEST or index == len(self.messages) - 1 != self.done:
                return
            link = self._link_for(index, ahead)
            if link is None:
                return
            self._send(link, index)
            self.next += 1

    def _link_for(self, index: int, ahead: int) -> Link | None:
        """The connection that a record is sent over: that of its superior or of its own name, while they have no answer; else that with the fewest under way. None, if that has too many."""
        key = key_of(record_of(self.messages[index]))
        before = [it for it in (self.named.get(key), self.named.get(key.partition(",")[2])) if it is not None]
        if len({id(link) for link, _ in before}) > 1:
            return None
        link = before[0][0] if before else min(self.links, key=lambda it: len(it.under_way))
        return link if len(link.under_way) < ahead else None

    def _send(self, link: Link, index: int) -> None:
        """Sends a record."""
        link.under_way.append(index)
        self.named[key_of(record_of(self.messages[index]))] = (link, index)
        link.client.socket.sendall(self.messages[index])

    def _take(self, uri: str, link: Link) -> tuple[str, list[str]] | None:
        """Takes the next answer of a connection; why the replica takes no more, and the URIs that it refers to, if it doesn't."""
        number, _, fields, controls = link.client.receive()
        code, text = int.from_bytes(fields[0][1], "big"), fields[2][1].decode("utf-8", "replace")
        if number == 0:
            raise Closed(f"it ended the session: {code_name(code)}")
        if code == REFERRAL:
            return self._referred(uri, [it.decode() for field, content in fields if field == 0xA3 for _, it in ldap.elements(content)])
        if code in ELSEWHERE:
            return code_name(code), []
        index = link.under_way.popleft()
        key = key_of(record_of(self.messages[index]))
        if self.named.get(key) == (link, index):
            del self.named[key]
        if index == len(self.messages) - 1:
            self.number = controls.get(ldap.READ, "")
        if code == NO_SUCH_OBJECT and index > self.done and self._goes_forward():
            self.again.add(index)
        else:
            self._settle(index, code, text)
        return None

    def _goes_forward(self) -> bool:
        """Whether further records are sent."""
        return self.goes_on or not self.refused

    def _refuses_long(self) -> bool:
        """Refuses the next record where it is too long for a message, which no replica would read; whether that is the end."""
        while self.done < len(self.messages) and len(self.messages[self.done]) > LONGEST:
            self._refuse(self.done, f"its request takes {len(self.messages[self.done])} octets, and a replica reads at most {LONGEST}: it is not sent")
            self._count(self.done)
            if not self._goes_forward():
                return True
        return self.done == len(self.messages)

    def _referred(self, uri: str, uris: list[str]) -> tuple[str, list[str]]:
        """The URIs of a referral that can be followed."""
        spoken = [it for it in uris if it.startswith("ldap://")]
        return (f"it refers to {', '.join(uris)}, which is no ldap:// URI" if not spoken else ""), spoken

    def _settle(self, index: int, code: int, text: str) -> None:
        """Counts the answer to a record."""
        if code == EXISTS and index in self.unsure:
            code = SUCCESS
        if code == SUCCESS:
            self.added += 1
            if not self._goes_forward() and index + 1 > self.refused[0]:
                bisect.insort(self.beyond, index + 1)
        elif code == EXISTS and self.skips:
            bisect.insort(self.present, index + 1)
        else:
            self._refuse(index, f"{code_name(code)}{': ' + text if text else ''}")
        self._count(index)

    def _count(self, index: int) -> None:
        """Notes that a record has its answer."""
        self.settled += 1
        self.answered.add(index)
        while self.done in self.answered:
            self.answered.discard(self.done)
            self.done += 1

    def _refuse(self, index: int, why: str) -> None:
        """Tells of a record that is refused, and writes it to the file of those."""
        line = self.records.line(index) if self.records else ""
        self.tell(f"record {index + 1}{line} ({record_of(self.messages[index])}): {why}")
        if self.refused_file is not None and self.records is not None:
            with open(self.refused_file, "ab" if self.refused else "wb") as file:
                if not self.refused:
                    file.write(b"version: 1\n")
                text = self.records.text(index).replace(b"\r\n", b"\n")
                file.write(f"\n# record {index + 1}{line} of {os.path.basename(self.records.path)}: {why}\n".encode() + text.rstrip(b"\n") + b"\n")
        bisect.insort(self.refused, index + 1)


def messages_of(path: str) -> list[bytes]:
    """The adds that the records of an LDIF file ask for (RFC 2849)."""
    with open(path, "rb") as file:
        run = run_program("import", stdin=file)
    if run.returncode != 0:
        raise Failure(f"{path}: {run.stderr.strip()}")
    return [bytes.fromhex(line) for line in run.stdout.splitlines()]


# What to do where a search gets a code.
REMEDIES = {BUSY: ": this replica has not made update {number} yet; ask again, or another one", UNAVAILABLE: ": this replica has no state yet; ask another one",
            34: ": no name under the directory's schema"}


def depth_of(name: str) -> int:
    """How many relative names a name has (RFC 4514): the commas that aren't escaped tell."""
    return re.sub(r"\\.", "", name).count(",")


def state_of(client: ldap.Client, base: str, number: int = 0) -> tuple[list[bytes], str]:
    """The entries at and below a base, of one state that is no older than the update of a number, as the messages that show them, each behind the entry above
    it, and behind them the message that ends the search; and the number of that state's last update."""
    client.send(ldap.search(base, 2, ldap.present("objectClass")), [ldap.control(ldap.READ, str(number))])
    found: list[tuple[int, bytes]] = []
    while True:
        whole = client.next_message()
        operation = ldap.elements(whole)[1]
        fields = ldap.elements(operation[1])
        if operation[0] == 0x64:
            found.append((depth_of(fields[0][1].decode()), ldap.element(0x30, whole)))
            continue
        code = int.from_bytes(fields[0][1], "big")
        if code not in (SUCCESS, NO_SUCH_OBJECT):
            raise (Behind if code == BUSY else Failure)(f"the search of {base}: {code_name(code)}{REMEDIES.get(code, '').format(number=number)}")
        # What was moved may stand below an entry of a higher number; the order among entries of one depth stays.
        found.sort(key=lambda it: it[0])
        return [*(message for _, message in found), ldap.element(0x30, whole)], ldap.controls_of(whole).get(ldap.READ, "")


def write_ldif(messages: list[bytes], path: str) -> int:
    """Writes the entries that a search showed as an LDIF file, which is there whole or not at all; gives how many."""
    run = run_program("export", input="".join(f"{it.hex()}\n" for it in messages))
    if run.returncode != 0:
        raise Failure(f"export: {run.stderr.strip()}")
    with open(f"{path}.new", "w", encoding="utf-8") as file:
        file.write(run.stdout)
        file.flush()
        os.fsync(file.fileno())
    os.replace(f"{path}.new", path)
    return len(messages) - 1
