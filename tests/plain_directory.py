"""A directory as its definition says it is, and nothing faster: a list of entries in the order of their numbers, updates that look at each of them, and a
filter's value by recursion (RFC 4511 4.5 to 4.9), for the few names, types and values that `any_update` and `any_filter` make. Updates and searches flow in;
codes and names flow out. It is the other side of a comparison with the program, and shares nothing with it."""
from __future__ import annotations

import random
from typing import NamedTuple, Optional

import ldap_client as ldap

ROOT = ("dc=example,dc=com",)
SUCCESS, NO_ATTRIBUTE, VALUE_EXISTS, NO_ENTRY, NOT_ON_LEAF, ON_NAME, EXISTS = 0, 16, 20, 32, 66, 67, 68
UNITS, ITEMS, LABELS = ("ou=A", "ou=B", "ou=C"), ("cn=a", "cn=b", "cn=c", "cn=d"), ("red", "Green", "blue", "blue sky")

# Names are tuples of relative names, the root's as one, from the root down. An entry is its number, its name, and its values by type.
Name = tuple


class Entry(NamedTuple):
    number: int
    name: Name
    values: dict


class Update(NamedTuple):
    """What a script says, and what it means: a kind and its parts."""
    text: str
    kind: str
    name: Name = ()
    parts: tuple = ()


def printed(name: Name) -> str:
    return ",".join(reversed(name))


def folded(value: str) -> str:
    return " ".join(value.lower().split())


def has(values: list[str], value: str) -> bool:
    return any(folded(one) == folded(value) for one in values)


def found(directory: list[Entry], name: Name) -> Optional[Entry]:
    return next((entry for entry in directory if tuple(map(folded, entry.name)) == tuple(map(folded, name))), None)


def replaced(directory: list[Entry], entry: Entry) -> list[Entry]:
    return [entry if one.number == entry.number else one for one in directory]


def applied(directory: list[Entry], number: int, update: Update) -> tuple[list[Entry], int]:
    """The directory after an update under this number, and the update's code."""
    if update.kind == "noop":
        return directory, SUCCESS
    if update.kind == "add":
        return added(directory, number, update)
    entry = found(directory, update.name)
    if entry is None:
        return directory, NO_ENTRY
    if update.kind == "delete":
        if any(one.name[:len(entry.name)] == entry.name and one is not entry for one in directory):
            return directory, NOT_ON_LEAF
        return [one for one in directory if one is not entry], SUCCESS
    return (renamed if update.kind == "rename" else changed)(directory, entry, update)


def added(directory: list[Entry], number: int, update: Update) -> tuple[list[Entry], int]:
    if found(directory, update.name) is not None:
        return directory, EXISTS
    if update.name != ROOT and found(directory, update.name[:-1]) is None:
        return directory, NO_ENTRY
    return directory + [Entry(number, update.name, {kind: list(values) for kind, values in update.parts})], SUCCESS


def changed(directory: list[Entry], entry: Entry, update: Update) -> tuple[list[Entry], int]:
    """Each change in turn is an add, a delete or a replace of values of one type; all of them or none."""
    values = {kind: list(held) for kind, held in entry.values.items()}
    for change, kind, given in update.parts:
        held = values.get(kind, [])
        if change == 0:
            if any(has(held, value) for value in given):
                return directory, VALUE_EXISTS
            values[kind] = held + list(given)
        elif change == 1:
            if not held or not all(has(held, value) for value in given):
                return directory, NO_ATTRIBUTE
            values[kind] = [value for value in held if given and not has(given, value)]
        else:
            values[kind] = list(given)
    kind, _, value = entry.name[-1].partition("=")
    if not has(values.get(kind, []), value):
        return directory, ON_NAME
    return replaced(directory, entry._replace(values={kind: held for kind, held in values.items() if held})), SUCCESS


def renamed(directory: list[Entry], entry: Entry, update: Update) -> tuple[list[Entry], int]:
    """Another last relative name; names below follow."""
    relative, keeps_old = update.parts
    name = entry.name[:-1] + (relative,)
    other = found(directory, name)
    if other is not None and other is not entry:
        return directory, EXISTS
    kind, _, old = entry.name[-1].partition("=")
    new = relative.partition("=")[2]
    held = entry.values[kind] if has(entry.values[kind], new) else entry.values[kind] + [new]
    if not keeps_old:
        held = [value for value in held if folded(value) != folded(old) or folded(value) == folded(new)]
    depth = len(entry.name)
    moved = [one._replace(name=name + one.name[depth:]) if one.name[:depth] == entry.name else one for one in directory]
    return replaced(moved, Entry(entry.number, name, {**entry.values, kind: held})), SUCCESS


def value_of(filter_: tuple, entry: Entry) -> Optional[bool]:
    """A filter's value at an entry: True, False, or None for Undefined."""
    kind, *parts = filter_
    if kind == "not":
        value = value_of(parts[0], entry)
        return None if value is None else not value
    if kind in ("and", "or"):
        values, ends = [value_of(part, entry) for part in parts], kind == "or"
        return ends if ends in values else None if None in values else not ends
    held = entry.values.get(parts[0], [])
    if kind == "present":
        return bool(held)
    if kind == "unknown":
        return None
    if kind == "at least":
        return any(int(value) >= parts[1] for value in held)
    if kind == "begins":
        return any(folded(value).startswith(folded(parts[1])) for value in held)
    return has(held, parts[1])


def text_of(filter_: tuple) -> str:
    kind, *parts = filter_
    if kind in ("and", "or", "not"):
        return "(" + {"and": "&", "or": "|", "not": "!"}[kind] + "".join(map(text_of, parts)) + ")"
    return {"present": "({}=*)", "unknown": "({}=x)", "at least": "({}>={})", "begins": "({}={}*)", "equal": "({}={})"}[kind].format(*parts)


def answered(directory: list[Entry], base: Name, scope: str, filter_: tuple) -> tuple[int, list[str]]:
    """A search's code, and the names of the entries in scope whose filter value is True, in the order of their numbers."""
    if found(directory, base) is None:
        return NO_ENTRY, []
    depth = len(base)
    below = {"base": lambda more: more == 0, "one": lambda more: more == 1, "sub": lambda more: True}[scope]
    return SUCCESS, [printed(entry.name) for entry in directory
                     if entry.name[:depth] == base and below(len(entry.name) - depth) and value_of(filter_, entry) is True]


def any_name(chance: random.Random, directory: list[Entry]) -> Name:
    """Mostly that of an entry below the root, where there is one."""
    held = [entry.name for entry in directory if entry.name != ROOT]
    if held and chance.random() < 0.8:
        return chance.choice(held)
    units = [name for name in held if len(name) == 2]
    unit = chance.choice(units)[-1] if units and chance.random() < 0.8 else chance.choice(UNITS)
    return ROOT + ((unit,) if chance.random() < 0.3 else (unit, chance.choice(ITEMS)))


def any_update(chance: random.Random, directory: list[Entry]) -> Update:
    """An update of what a directory may hold; most of them are made, many refused."""
    kind = chance.choices(["add", "delete", "change", "rename", "noop"], [10, 2, 5, 3, 1])[0]
    if chance.random() < (0.02 if directory else 0.8):
        return an_add(ROOT, [("objectClass", ["domain"]), ("dc", ["example"])])
    if kind == "noop":
        return Update("noop", kind)
    name = any_name(chance, [entry for entry in directory if len(entry.name) == 2 and chance.random() < 0.3] if kind == "add" else directory)
    own = name[-1].partition("=")[2]
    if kind == "delete":
        return Update(f"delete {printed(name)}", kind, name)
    if kind == "rename":
        relative, keeps_old = chance.choice(UNITS if len(name) == 2 else ITEMS), chance.random() < 0.3
        return a_message(ldap.modify_dn(printed(name), relative, keeps_old), kind, name, (relative, keeps_old))
    if kind == "change":
        if len(name) == 2:
            changes = (chance.choice([(2, "description", (chance.choice(LABELS),)), (1, "ou", (own,))]),)
        else:
            changes = tuple(a_change(chance, own) for _ in range(chance.choice([1, 1, 2])))
        return a_message(ldap.modify(printed(name), [(change, kind_, list(values)) for change, kind_, values in changes]), kind, name, changes)
    if len(name) == 2:
        return an_add(name, [("objectClass", ["organizationalUnit"]), ("ou", [own])])
    labels, rank = chance.sample(LABELS, chance.choice([1, 2])), str(chance.randrange(9))
    return an_add(name, [("objectClass", ["item"]), ("cn", [own]), ("label", labels), ("rank", [rank])])


def a_change(chance: random.Random, own: str) -> tuple:
    """A change of an item's values: of its labels, of its rank, or of the value that its name has."""
    label, rank = chance.choice(LABELS), str(chance.randrange(9))
    return chance.choice([(0, "label", (label,)), (1, "label", (label,)), (2, "label", tuple(chance.sample(LABELS, 2))), (1, "label", ()), (2, "rank", (rank,)),
                          (1, "cn", (own,))])


def an_add(name: Name, pairs: list[tuple[str, list[str]]]) -> Update:
    lines = "|".join(f"{kind}: {value}" for kind, values in pairs for value in values)
    return Update(f"add {printed(name)}|{lines}", "add", name, tuple((kind, tuple(values)) for kind, values in pairs))


def a_message(operation: bytes, kind: str, name: Name, parts: tuple) -> Update:
    return Update("hex " + ldap.element(0x30, ldap.integer(1) + operation).hex(), kind, name, parts)


def any_filter(chance: random.Random, depth: int = 2) -> tuple:
    kind = chance.choice(["and", "or", "not", "leaf", "leaf"]) if depth > 0 else "leaf"
    if kind == "not":
        return "not", any_filter(chance, depth - 1)
    if kind != "leaf":
        return kind, *(any_filter(chance, depth - 1) for _ in range(chance.choice([0, 1, 2, 2, 3])))
    name, label, rank = chance.choice("abcd"), chance.choice(LABELS).upper(), chance.randrange(9)
    return chance.choice([("present", "label"), ("present", "objectClass"), ("unknown", "nosuchtype"), ("at least", "rank", rank), ("begins", "label", "blue"),
                          ("equal", "cn", name), ("equal", "label", label), ("equal", "ou", "A")])
