"""Compiles a crate of tests/callers and plays it, as the libraries and it stand, with checks on each access and no proof (`rt try`): what is proved of the
libraries is the gate's, and a test promises nothing, so that it costs no proof. tests/callers.txt names the libraries of each crate there.

The sources end in .rs, and definitions and proofs in .txt, since the toolchain's own endings stand only in crates that the gate proves."""
from __future__ import annotations

import os
import shutil
import subprocess
import tempfile

TOP = os.path.dirname(os.path.dirname(os.path.abspath(__file__)))
CALLERS = os.path.join(TOP, "tests", "callers")
LISTED = os.path.join(TOP, "tests", "callers.txt")
CRATES = os.path.join(TOP, "crates.txt")
ENDINGS = {".rs": ".rt", ".txt": ".antt"}


def lines_of(path: str) -> dict[str, str]:
    """The lines of a list of crates, by the name that each is of."""
    with open(path, encoding="utf-8") as file:
        lines = [line.split("#")[0].strip() for line in file]
    return {line.partition(":")[0].split()[0]: line for line in lines if line}


def listed() -> list[str]:
    """The names of the crates of tests/callers."""
    return [*lines_of(LISTED)]


def needed(crate: str) -> dict[str, str]:
    """The lines of a crate and of those below it that the repository has."""
    lines = lines_of(CRATES) | lines_of(LISTED)
    found: dict[str, str] = {}
    rest = [crate]
    while rest:
        name = rest.pop()
        if name in lines and name not in found:
            found[name] = lines[name]
            rest += lines[name].partition(":")[2].split()
    return found


def laid_out(room: str, lines: dict[str, str]) -> None:
    """Makes a repository of these crates in the room: their sources as they stand, and nothing that was built."""
    os.makedirs(f"{room}/crates")
    shutil.copy(f"{TOP}/HANDLES", room)
    with open(f"{room}/crates.txt", "w", encoding="utf-8") as file:
        file.writelines(f"{line}\n" for line in lines.values())
    callers = listed()
    for name in lines:
        if name in callers:
            lay_caller(room, name)
            continue
        for part in ("src", "specs", "proofs"):
            if os.path.isdir(f"{TOP}/crates/{name}/{part}"):
                shutil.copytree(f"{TOP}/crates/{name}/{part}", f"{room}/crates/{name}/{part}")


def lay_caller(room: str, name: str) -> None:
    """Puts a crate of tests/callers into the room, with the toolchain's endings."""
    shutil.copytree(f"{CALLERS}/{name}", f"{room}/crates/{name}", ignore=shutil.ignore_patterns("out"))
    for at, _, files in os.walk(f"{room}/crates/{name}"):
        for file in files:
            own, ending = os.path.splitext(file)
            if ending in ENDINGS:
                os.rename(f"{at}/{file}", f"{at}/{own}{ENDINGS[ending]}")


def tried(crate: str, lines: dict[str, str], words: list[str]) -> subprocess.CompletedProcess[str]:
    """What `rt try` with these words says in the folder of a crate, with the crates of these lines laid out about it."""
    with tempfile.TemporaryDirectory(prefix="calls-") as room:
        laid_out(room, lines)
        return subprocess.run(
            ["rt", "try", *words],
            cwd=f"{room}/crates/{crate}",
            stdin=subprocess.DEVNULL,
            capture_output=True,
            text=True,
            errors="replace",
        )
