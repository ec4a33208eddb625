"""A small LDAP client (RFC 4511) on Python's standard library: enough for each operation, one request after the other or many at once. Host names, requests and controls flow in; responses flow out as (operation, code, fields, controls). It judges nothing."""
from __future__ import annotations

import socket

READ = "2.25.20120101"
CLIENT = "2.25.20120102"
NOOP = "2.25.20120103"


def element(tag: int, content: bytes) -> bytes:
    """One BER element with the shortest definite length."""
    count = len(content)
    if count < 0x80:
        return bytes([tag, count]) + content
    digits = count.to_bytes((count.bit_length() + 7) // 8, "big")
    return bytes([tag, 0x80 | len(digits)]) + digits + content


def integer(number: int, tag: int = 0x02) -> bytes:
    """An INTEGER or, by its tag, an ENUMERATED; not negative."""
    return element(tag, number.to_bytes(number.bit_length() // 8 + 1, "big"))


def text(value: str | bytes, tag: int = 0x04) -> bytes:
    """An OCTET STRING."""
    return element(tag, value if isinstance(value, bytes) else value.encode())


def elements(content: bytes) -> list[tuple[int, bytes]]:
    """The elements that stand one behind the other."""
    found = []
    at = 0
    while at < len(content):
        tag, count = content[at], content[at + 1]
        at += 2
        if count & 0x80:
            more = count & 0x7F
            count = int.from_bytes(content[at:at + more], "big")
            at += more
        found.append((tag, content[at:at + count]))
        at += count
    return found


def attributes_of(pairs: list[tuple[str, list[str]]]) -> bytes:
    """A list of attributes with their values."""
    return element(0x30, b"".join(element(0x30, text(name) + element(0x31, b"".join(text(value) for value in values))) for name, values in pairs))


def add(name: str, pairs: list[tuple[str, list[str]]]) -> bytes:
    return element(0x68, text(name) + attributes_of(pairs))


def delete(name: str) -> bytes:
    return text(name, 0x4A)


def modify(name: str, changes: list[tuple[int, str, list[str]]]) -> bytes:
    """Each change is 0 (add), 1 (delete) or 2 (replace), an attribute and its values."""
    one_by_one = (element(0x30, integer(kind, 0x0A) + elements(attributes_of([(attribute, values)]))[0][1]) for kind, attribute, values in changes)
    return element(0x66, text(name) + element(0x30, b"".join(one_by_one)))


def modify_dn(name: str, relative: str, keeps_old: bool = False) -> bytes:
    return element(0x6C, text(name) + text(relative) + element(0x01, b"\0" if keeps_old else b"\xff"))


def extended(oid: str) -> bytes:
    return element(0x77, text(oid, 0x80))


def noop() -> bytes:
    return extended(NOOP)


def equal(attribute: str, value: str) -> bytes:
    """An equalityMatch filter."""
    return element(0xA3, text(attribute) + text(value))


def present(attribute: str) -> bytes:
    """A present filter."""
    return text(attribute, 0x87)


def search(base: str, scope: int, filter_: bytes, selectors: list[str] = []) -> bytes:
    return element(0x63, text(base) + integer(scope, 0x0A) + integer(0, 0x0A) + integer(0) + integer(0) + element(0x01, b"\0") + filter_
                   + element(0x30, b"".join(text(selector) for selector in selectors)))


def compare(name: str, attribute: str, value: str) -> bytes:
    return element(0x6E, text(name) + element(0x30, text(attribute) + text(value)))


def control(oid: str, value: str | None = None, critical: bool = True) -> bytes:
    return element(0x30, text(oid) + (element(0x01, b"\xff") if critical else b"") + (text(value) if value is not None else b""))


def controls_of(whole: bytes) -> dict[str, str]:
    """The values of a message's controls by OID."""
    found = {}
    for tag, content in elements(whole)[2:]:
        if tag == 0xA0:
            for _, one in elements(content):
                fields = elements(one)
                found[fields[0][1].decode()] = fields[-1][1].decode()
    return found


class Closed(Exception):
    """The other end closed the stream, or was silent for too long."""


class Client:
    """One connection."""

    def __init__(self, host: str, port: int, timeout: float = 20.0, receives: int | None = None):
        """A client whose system keeps so many octets for it that it hasn't read, or as many as it likes."""
        self.socket = socket.socket()
        self.socket.settimeout(timeout)
        if receives is not None:
            self.socket.setsockopt(socket.SOL_SOCKET, socket.SO_RCVBUF, receives)
        self.socket.connect((host, port))
        self.socket.setsockopt(socket.IPPROTO_TCP, socket.TCP_NODELAY, 1)
        # What has come, and how much of it was taken.
        self.rest = b""
        self.at = 0
        self.number = 0

    def close(self) -> None:
        self.socket.close()

    def send(self, operation: bytes, controls: list[bytes] = []) -> int:
        """Sends a request, and gives its messageID."""
        self.number += 1
        self.socket.sendall(element(0x30, integer(self.number) + operation + (element(0xA0, b"".join(controls)) if controls else b"")))
        return self.number

    def next_message(self) -> bytes:
        """What the next message consists of, behind its own octet and length."""
        while True:
            whole = self._whole()
            if whole is not None:
                return whole
            try:
                more = self.socket.recv(65536)
            except (socket.timeout, ConnectionError) as error:
                raise Closed(str(error)) from error
            if not more:
                raise Closed("closed")
            # What was taken goes here, so that a message costs its own octets.
            self.rest = self.rest[self.at:] + more
            self.at = 0

    def has_message(self) -> bool:
        """Whether a whole message has come that wasn't taken."""
        at, whole = self.at, self._whole()
        self.at = at
        return whole is not None

    def receive(self) -> tuple[int, int, list[tuple[int, bytes]], dict[str, str]]:
        """The next message: its messageID, the operation's octet, the operation's parts, and the controls' values by OID."""
        whole = self.next_message()
        parts = elements(whole)
        return int.from_bytes(parts[0][1], "big"), parts[1][0], elements(parts[1][1]), controls_of(whole)

    def _whole(self) -> bytes | None:
        """The next message, if all of it has come."""
        at = self.at
        if len(self.rest) < at + 2:
            return None
        count = self.rest[at + 1]
        at += 2
        if count & 0x80:
            more = count & 0x7F
            if len(self.rest) < at + more:
                return None
            count = int.from_bytes(self.rest[at:at + more], "big")
            at += more
        if len(self.rest) < at + count:
            return None
        self.at = at + count
        return self.rest[at:at + count]

    def ask(self, operation: bytes, controls: list[bytes] = []) -> tuple[int, dict[str, str], list[tuple[str, bytes]], list[str]]:
        """Sends a request and takes its responses: the code, the controls, the entries as (name, attributes), and the referral's URIs."""
        self.send(operation, controls)
        entries = []
        while True:
            _, tag, fields, answered = self.receive()
            if tag == 0x64:
                entries.append((fields[0][1].decode(), fields[1][1]))
                continue
            uris = [uri.decode() for field, content in fields if field == 0xA3 for _, uri in elements(content)]
            return int.from_bytes(fields[0][1], "big"), answered, entries, uris

    def bind(self, name: str, password: str) -> int:
        return self.ask(element(0x60, integer(3) + text(name) + text(password, 0x80)))[0]

    def unbind(self) -> None:
        self.send(bytes([0x42, 0]))
        self.close()
