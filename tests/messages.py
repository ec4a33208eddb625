"""LDAP messages (RFC 4511) written in words, for rows. Words flow in, octets in the shortest form flow out. The form is in tests/tables/README.md; what is no message can't be
written so."""
from __future__ import annotations

import re
import shlex

from ldap_client import element, integer, text

SCOPES = {"base": 0, "one": 1, "sub": 2}
CHANGES = {"add": 0, "delete": 1, "replace": 2}
# Responses that are a result alone, by the operation that they answer.
RESULTS = {"bound": 0x61, "searched": 0x65, "modified": 0x67, "added": 0x69, "deleted": 0x6B, "renamed": 0x6D, "compared": 0x6F, "answered": 0x78}
ITEMS = {"=": 0xA3, ">=": 0xA5, "<=": 0xA6, "~=": 0xA8}
LISTS = {"&": 0xA0, "|": 0xA1}
BOOLEANS = {False: b"\0", True: b"\xff"}


class Unwritten(Exception):
    """These words are no message."""


def value_of(written: str) -> bytes:
    """A value; `\\XX` is an octet."""
    parts = re.split(r"\\([0-9a-fA-F]{2})", written)
    return b"".join(bytes.fromhex(part) if at % 2 else part.encode() for at, part in enumerate(parts))


def substrings(description: str, written: str) -> bytes:
    first, *middle, last = written.split("*")
    parts = [(0x80, first), *((0x81, part) for part in middle), (0x82, last)]
    return element(0xA4, text(description) + element(0x30, b"".join(text(value_of(part), tag) for tag, part in parts if part)))


def extensible(head: str, written: str) -> bytes:
    """`type:dn:rule:=value`, of which a type or a rule may be missing."""
    parts = head.split(":")
    description = parts.pop(0)
    has_names = "dn" in parts
    rule = "".join(part for part in parts if part != "dn")
    return element(0xA9, (text(rule, 0x81) if rule else b"") + (text(description, 0x82) if description else b"") + text(value_of(written), 0x83)
                   + (element(0x84, b"\xff") if has_names else b""))


def item(written: str) -> bytes:
    """A filter that has no other in it."""
    found = re.fullmatch(r"(?s)([^=<>~]*?)(:=|>=|<=|~=|=)(.*)", written)
    if not found:
        raise Unwritten(written)
    head, sign, value = found.groups()
    if sign == ":=":
        return extensible(head, value)
    if sign == "=" and value == "*":
        return text(head, 0x87)
    if sign == "=" and "*" in value:
        return substrings(head, value)
    return element(ITEMS[sign], text(head) + text(value_of(value)))


def filter_at(written: str, at: int) -> tuple[bytes, int]:
    """The filter that begins at a place, and where it ends (RFC 4515)."""
    if written[at:at + 1] != "(":
        raise Unwritten(written)
    at += 1
    sign = written[at:at + 1]
    if sign in LISTS or sign == "!":
        at += 1
        parts = []
        while written[at:at + 1] == "(":
            part, at = filter_at(written, at)
            parts.append(part)
        octets = element(LISTS.get(sign, 0xA2), b"".join(parts))
    else:
        end = written.index(")", at)
        octets, at = item(written[at:end]), end
    if written[at:at + 1] != ")":
        raise Unwritten(written)
    return octets, at + 1


def filter_of(written: str) -> bytes:
    octets, end = filter_at(written, 0)
    if end != len(written):
        raise Unwritten(written)
    return octets


def attributes_of(words: list[str]) -> bytes:
    """`type=value` words: those of one type that stand together are one attribute; `type` alone is one without values."""
    groups: list[tuple[str, list[bytes]]] = []
    for word in words:
        name, sign, value = word.partition("=")
        if not groups or groups[-1][0] != name:
            groups.append((name, []))
        if sign:
            groups[-1][1].append(value_of(value))
    return element(0x30, b"".join(element(0x30, text(name) + element(0x31, b"".join(map(text, values)))) for name, values in groups))


def changes_of(words: list[str]) -> bytes:
    """`add:type=value`, `delete:type`, ..; a value alone, as `=value`, is a further one of the change before."""
    changes: list[tuple[int, str, list[bytes]]] = []
    for word in words:
        head, sign, value = word.partition("=")
        if head:
            kind, _, name = head.partition(":")
            changes.append((CHANGES[kind], name, []))
        if sign:
            changes[-1][2].append(value_of(value))
    return element(0x30, b"".join(element(0x30, integer(kind, 0x0A) + element(0x30, text(name) + element(0x31, b"".join(map(text, values)))))
                                  for kind, name, values in changes))


def search(base: str, scope: str, *words: str) -> bytes:
    """Words `size=N`, `time=N`, `types` may stand before the filter; the selected attributes stand behind it."""
    size = time = 0
    types = False
    rest = list(words)
    while rest and not rest[0].startswith("("):
        word = rest.pop(0)
        name, _, number = word.partition("=")
        if name == "size":
            size = int(number)
        elif name == "time":
            time = int(number)
        elif name == "types":
            types = True
        else:
            raise Unwritten(word)
    return element(0x63, text(value_of(base)) + integer(SCOPES[scope], 0x0A) + integer(0, 0x0A) + integer(size) + integer(time) + element(0x01, BOOLEANS[types])
                   + filter_of(rest[0]) + element(0x30, b"".join(map(text, rest[1:]))))


def rename(name: str, relative: str, *words: str) -> bytes:
    """`keep` keeps the old relative name's values; `below=NAME` names the new superior."""
    superior = [word.removeprefix("below=") for word in words if word.startswith("below=")]
    return element(0x6C, text(value_of(name)) + text(value_of(relative)) + element(0x01, BOOLEANS["keep" not in words])
                   + b"".join(text(value_of(one), 0x80) for one in superior))


def result(tag: int, code: str, matched: str = "", told: str = "", *referrals: str) -> bytes:
    return element(tag, integer(int(code), 0x0A) + text(value_of(matched)) + text(value_of(told))
                   + (element(0xA3, b"".join(map(text, referrals))) if referrals else b""))


def operation(kind: str, *words: str) -> bytes:
    """An operation's element."""
    if kind in RESULTS:
        return result(RESULTS[kind], *words)
    if kind == "search":
        return search(*words)
    if kind == "rename":
        return rename(*words)
    name = text(value_of(words[0])) if words else b""
    if kind == "bind":
        return element(0x60, integer(3) + name + text(value_of(words[1]), 0x80))
    if kind == "unbind":
        return element(0x42, b"")
    if kind == "abandon":
        return integer(int(words[0]), 0x50)
    if kind == "delete":
        return text(value_of(words[0]), 0x4A)
    if kind == "compare":
        return element(0x6E, name + element(0x30, text(words[1]) + text(value_of(words[2]))))
    if kind == "add":
        return element(0x68, name + attributes_of(list(words[1:])))
    if kind == "modify":
        return element(0x66, name + changes_of(list(words[1:])))
    if kind == "entry":
        return element(0x64, name + attributes_of(list(words[1:])))
    if kind == "extended":
        return element(0x77, text(words[0], 0x80) + b"".join(text(value_of(word), 0x81) for word in words[1:]))
    raise Unwritten(kind)


def control(word: str) -> bytes:
    """`+OID` is critical, `-OID` isn't; a value may stand behind `=`."""
    oid, sign, value = word[1:].partition("=")
    return element(0x30, text(oid) + (element(0x01, b"\xff") if word[0] == "+" else b"") + (text(value_of(value)) if sign else b""))


def message(written: str) -> bytes:
    """A message of words: its number, its operation, and its controls behind `with`."""
    lexer = shlex.shlex(written, posix=True)
    lexer.whitespace_split, lexer.escape, lexer.commenters = True, "", ""
    words = list(lexer)
    controls: list[str] = []
    if "with" in words:
        at = words.index("with")
        words, controls = words[:at], words[at + 1:]
    try:
        number, kind, *rest = words
        return element(0x30, integer(int(number)) + operation(kind, *rest) + (element(0xA0, b"".join(map(control, controls))) if controls else b""))
    except (ValueError, KeyError, TypeError, IndexError) as error:
        raise Unwritten(written) from error
