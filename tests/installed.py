"""Tests of `tools/install` and of what it installs, below a folder in place of `/`: the units' command lines are run as systemd runs them, with that folder's paths. And of `tools/status` and of
examples/monitoring, over the same replicas."""
from __future__ import annotations

import json
import os
import re
import shutil
import stat
import subprocess
import threading
import time
import urllib.request

import ldap_client as ldap
from replicas import MANAGER, PASSWORD, SUFFIX, TOP, free_ports, is_proved, program
from serving import HOST, PATIENCE, item

PREFIX = "/usr/local"
COUNT = 3
MONITORING = os.path.join(TOP, "examples", "monitoring")
PROGRAMS = ("dird", "dird-load", "dird-backup", "dird-status", "dird-init", "dird-slapd-schema")
# The most exposure of a unit, as `systemd-analyze security` counts it, in tenths.
EXPOSURE = "30"


def told_by(*words: str, status: int = 0, **options) -> str:
    """What a command prints; its status has to be this one."""
    run = subprocess.run(words, stdout=subprocess.PIPE, stderr=subprocess.STDOUT, text=True, timeout=300, **options)
    assert run.returncode == status, (words, run.returncode, run.stdout)
    return run.stdout


def environment() -> dict[str, str]:
    """The environment without the program's place, and without one in the PATH."""
    folders = [it for it in os.environ["PATH"].split(os.pathsep) if not os.path.exists(os.path.join(it, "dird"))]
    return {**{name: value for name, value in os.environ.items() if name != "DIRD"}, "PATH": os.pathsep.join(folders)}


class Host:
    """A folder that stands for the `/` of all hosts, with what `tools/install` puts there, and each replica's settings."""

    def __init__(self, root: str):
        self.root = root
        self.ports = free_ports(3 * COUNT)
        self.processes: dict[str, subprocess.Popen] = {}
        install = [os.path.join(TOP, "tools", "install"), "--prefix", PREFIX, "--root", root, *([] if is_proved() else ["--unproved"])]
        self.files = told_by(*install, cwd="/", env={**os.environ, "DIRD": program()}, stdin=subprocess.DEVNULL).splitlines()

    def path(self, name: str) -> str:
        return self.root + name

    def text(self, name: str) -> str:
        with open(self.path(name), encoding="utf-8") as file:
            return file.read()

    def monitor(self, index: int) -> str:
        return f"{HOST}:{self.ports[2 * COUNT + index]}"

    def uri(self, index: int) -> str:
        return f"ldap://{HOST}:{self.ports[2 * index + 1]}"

    def here(self, line: str, index: int) -> str:
        """A line of a page with this host's paths and this replica's name, without sudo."""
        line = re.sub(r"\bone\b", f"r{index}", line.removeprefix("sudo "))
        return re.sub(rf"(?<= )({PREFIX}|/etc)(?=/)", lambda found: self.root + found[1], line)

    def snippet(self, line: str) -> bool:
        """Runs systemd-sysusers or systemd-tmpfiles for this folder over the snippet that is installed; whether that can be done here."""
        words = line.removeprefix("sudo ").split()
        if os.geteuid() != 0 or shutil.which(words[0]) is None:
            print(f"left out: {words[0]} is not installed, or needs root")
            return False
        os.makedirs(self.path("/etc"), exist_ok=True)
        kind = words[0].removeprefix("systemd-")
        told_by(*words, f"--root={self.root}", self.path(f"{PREFIX}/lib/{kind}.d/dird.conf"))
        return True

    def copy_settings(self, line: str, index: int) -> None:
        """Copies the settings of a replica by this line."""
        for folder in ("/etc/dird", "/var/lib/dird"):
            os.makedirs(self.path(folder), exist_ok=True)
        told_by(*self.here(line, index).split(), cwd="/")

    def edit(self, index: int, more: str = "") -> None:
        """Changes a replica's settings, with further options, and writes the password's file."""
        peers = " ".join(f"{HOST}:{peer},{HOST}:{ldap_port}" for peer, ldap_port in zip(self.ports[0:2 * COUNT:2], self.ports[1:2 * COUNT:2]))
        path = f"/etc/dird/r{index}.conf"
        text = re.sub(r"(?m)^ID=.*", f"ID={index}", self.text(path))
        text = re.sub(r"(?m)^PEERS=.*", f"PEERS={peers}", text)
        text = re.sub(r"(?m)^OPTIONS=.*", f"OPTIONS=--metrics {self.monitor(index)} --beat 100 --suspect 2000 {more}", text)
        with open(self.path(path), "w", encoding="utf-8") as file:
            file.write(text)
        self.set_password(PASSWORD + "\n")

    def set_password(self, text: str) -> None:
        """Writes the password's file whole, since a replica may read it now."""
        path = self.path("/etc/dird/password")
        with open(f"{path}.new", "w", encoding="utf-8", opener=lambda name, flags: os.open(name, flags, 0o600)) as file:
            file.write(text)
        os.replace(f"{path}.new", path)

    def unit(self, name: str) -> list[str]:
        """The command line of a unit, `dird@r0` or alike, with its settings put in as systemd does, and this host's paths."""
        kind, _, instance = name.partition("@")
        text = self.text(f"{PREFIX}/lib/systemd/system/{kind}@.service").replace("%i", instance)
        [file] = re.findall(r"(?m)^EnvironmentFile=(.*)", text)
        settings = dict(re.findall(r"(?m)^(\w+)=(.*)", self.text(file)))
        [line] = re.findall(r"(?m)^ExecStart=(.*)", text)
        words: list[str] = []
        for word in line.split():
            whole = re.fullmatch(r"\$(\w+)", word)
            words += settings[whole[1]].split() if whole else [re.sub(r"\$\{(\w+)\}", lambda found: settings[found[1]], word)]
        return [re.sub(rf"^({PREFIX}|/var/lib/dird|/etc/dird)(?=/)", lambda found: self.root + found[1], word) for word in words]

    def may_start(self, name: str) -> bool:
        """Whether the unit's condition holds."""
        kind, _, instance = name.partition("@")
        [needed] = re.findall(r"(?m)^ConditionPathExists=(.*)", self.text(f"{PREFIX}/lib/systemd/system/{kind}@.service").replace("%i", instance))
        return os.path.exists(self.path(needed))

    def init(self, index: int, status: int = 0) -> str:
        """`systemctl start dird-init@r0`."""
        return told_by(*self.unit(f"dird-init@r{index}"), status=status, cwd="/", env=environment())

    def start(self, index: int) -> None:
        """`systemctl start dird@r0`."""
        assert self.may_start(f"dird@r{index}")
        self.processes[f"r{index}"] = subprocess.Popen(self.unit(f"dird@r{index}"), cwd="/", stdin=subprocess.DEVNULL, stdout=subprocess.PIPE, stderr=subprocess.PIPE, text=True,
                                                       env=environment(), start_new_session=True)

    def listens(self) -> None:
        """Waits until each replica that was started serves clients."""
        for process in self.processes.values():
            ready = threading.Event()
            threading.Thread(target=lambda: process.stdout.readline().startswith("listening ") and ready.set(), daemon=True).start()
            if not ready.wait(PATIENCE):
                process.kill()
                raise AssertionError(process.stderr.read())
            for stream in (process.stdout, process.stderr):
                threading.Thread(target=stream.read, daemon=True).start()

    def end(self, *indexes: int) -> None:
        for index in indexes or range(COUNT):
            process = self.processes.pop(f"r{index}", None)
            if process is not None:
                process.kill()
                process.wait()

    def tool(self, name: str, *words: str, status: int = 0) -> str:
        """What an installed tool prints, which finds the program beside itself."""
        return told_by(self.path(f"{PREFIX}/bin/{name}"), *words, status=status, cwd="/", env=environment())

    def status(self, wanted: int, *addresses: str) -> list[str]:
        """The lines of dird-status, once it has this status."""
        words = [self.path(f"{PREFIX}/bin/dird-status"), *(addresses or [self.monitor(index) for index in range(COUNT)])]
        end = time.time() + PATIENCE
        while True:
            run = subprocess.run(words, cwd="/", stdout=subprocess.PIPE, stderr=subprocess.PIPE, text=True, env=environment(), timeout=60)
            if run.returncode == wanted:
                return run.stdout.splitlines()
            assert time.time() < end, run
            time.sleep(0.2)


def files_are_in_their_places(host: Host) -> None:
    """Each file of the list is there, the program and the tools run, the texts are what they should be."""
    for name in PROGRAMS:
        assert os.access(host.path(f"{PREFIX}/bin/{name}"), os.X_OK), name
    assert all(os.path.isfile(it) for it in host.files) and len(host.files) == len(set(host.files)) > 15, host.files
    found = [os.path.join(at, name) for at, _, names in os.walk(host.root) for name in names]
    assert sorted(found) == sorted(host.files), (found, host.files)
    for name in found:
        assert os.path.islink(name) or stat.S_IMODE(os.stat(name).st_mode) in (0o644, 0o755), name
    assert not any("@PREFIX@" in host.text(name[len(host.root):]) for name in found if name.endswith((".service", ".conf")))
    assert host.text(f"{PREFIX}/share/man/man1/dird.1").startswith(".TH DIRD 1 ")
    for name in PROGRAMS[1:]:
        shown = host.tool(name, "--help")
        assert re.search(rf"(?m)^ *(usage: )?{name} ", shown) and "tools/" not in shown, (name, shown)


def completion_is_that_of_the_help(host: Host) -> None:
    """Commands, options and files are completed in bash; each option of each command's help is known."""
    script = host.path(f"{PREFIX}/share/bash-completion/completions/dird")

    def completed(*words: str) -> list[str]:
        quoted = " ".join(f"'{it}'" for it in words)
        return told_by("bash", "-c", f"source '{script}'; COMP_WORDS=({quoted}); COMP_CWORD={len(words) - 1}; _dird; printf '%s\\n' \"${{COMPREPLY[@]}}\"", cwd=TOP).split()

    assert completed("dird", "se") == ["search", "serve"]
    assert completed("dird", "serve", "--s") and set(completed("dird", "serve", "--s")) >= {"--store", "--suffix", "--schema", "--seats", "--sessions", "--stall", "--suspect", "--slow"}
    assert "tests/data/people.schema" in completed("dird", "check", "--schema", "tests/data/people.s")
    assert completed("dird", "serve", "--cluster", "") == []
    for command in completed("dird", ""):
        if not command.startswith("-") and command != "help":
            shown = subprocess.run([program(), command, "--help"], stdout=subprocess.PIPE, stderr=subprocess.DEVNULL, text=True).stdout
            assert set(re.findall(r"(?m)^ +(?:-\w, )?(--[a-z-]+)", shown)) == {it for it in completed("dird", command, "--")}, command


def units_are_hardened(host: Host) -> None:
    """systemd takes the units and snippets, and counts less exposure than 3, where it is installed."""
    if shutil.which("systemd-analyze") is None:
        print("left out: systemd-analyze is not installed")
        return
    for unit in ("dird@.service", "dird-init@.service"):
        path = host.path(f"{PREFIX}/lib/systemd/system/{unit}")
        told_by("systemd-analyze", "security", "--offline=yes", f"--threshold={EXPOSURE}", "--no-pager", path)
        copy = os.path.join(host.root, unit)
        with open(copy, "w", encoding="utf-8") as file:
            file.write(re.sub(r"(?m)^Documentation=.*\n", "", host.text(path[len(host.root):])).replace(f"ExecStart={PREFIX}", f"ExecStart={host.root}{PREFIX}"))
        assert told_by("systemd-analyze", "verify", "--man=no", copy) == ""
        os.unlink(copy)
        for words in ("--journal /var/lib/dird/journal-%i", "SystemCallFilter=", "RestrictAddressFamilies=", "UMask=0077"):
            assert words in host.text(path[len(host.root):]), (unit, words)
    for words in ("StartLimitIntervalSec=0", "LimitNOFILE="):
        assert words in host.text(f"{PREFIX}/lib/systemd/system/dird@.service"), words
    if host.snippet("systemd-sysusers") and host.snippet("systemd-tmpfiles --create"):
        assert re.search(r"(?m)^dird:", host.text("/etc/passwd")), "the user is there"
        assert stat.S_IMODE(os.stat(host.path("/var/lib/dird")).st_mode) == 0o700 and stat.S_IMODE(os.stat(host.path("/etc/dird/password")).st_mode) == 0o600
        os.unlink(host.path("/etc/dird/password"))


def a_first_start_cannot_be_done_wrong(host: Host) -> None:
    """The unit doesn't start before dird-init@ has made both files; a second dird-init@ is refused and changes nothing; nothing else is left in the folder."""
    folder = host.path("/var/lib/dird")
    assert not host.may_start("dird@r0")
    host.set_password("\n")
    assert "/etc/dird/password is empty: write the manager's password there" in host.init(0, status=1)
    host.set_password(PASSWORD + "\n")
    for index in range(COUNT):
        assert f"replica {index} of cluster 7: made " in host.init(index)
    made = {name: open(os.path.join(folder, name), "rb").read() for name in os.listdir(folder)}
    assert sorted(made) == sorted(f"{kind}-r{index}" for kind in ("view", "journal") for index in range(COUNT)), made
    assert "exists: this replica was made already" in host.init(0, status=1)
    os.rename(os.path.join(folder, "view-r0"), os.path.join(folder, "elsewhere"))
    assert "journal-r0 exists" in host.init(0, status=1)
    os.rename(os.path.join(folder, "elsewhere"), os.path.join(folder, "view-r0"))
    assert {name: open(os.path.join(folder, name), "rb").read() for name in os.listdir(folder)} == made
    new = [it.replace("-r0", "-new") for it in host.unit("dird-init@r0")]
    for words, why in ((new[:new.index("--journal")] + new[new.index("--journal") + 2:], "--journal FILE is missing"), ([*new, "--fresh"], "--fresh is what this does"), (new[:-1], "2 PEERs: a cluster has 3, 5 or 7"),
                       ([it.replace("/journal-new", "/none/journal-new") for it in new], "no folder "), ([it.replace("/journal-new", "/view-new") for it in new], "one file"), ([it.replace("dc=example,dc=com", "nonsense") for it in new], "bad name")):
        assert why in told_by(*words, status=1, cwd="/", env=environment()), why
        assert sorted(os.listdir(folder)) == sorted(made), why


def replicas_start_by_their_units(host: Host) -> None:
    """All three serve, are loaded and backed up, end at once, and go on; dird-status says what is so."""
    for index in range(COUNT):
        host.start(index)
    host.listens()
    lines = host.status(0)
    assert lines[0].split() == ["ADDRESS", "ROLE", "VIEW", "UPDATE", "LAG", "SESSIONS", "VERSION", "PROVED"], lines
    assert sorted(line.split()[1] for line in lines[1:4]) == ["backup", "backup", "primary"], lines
    assert all(line.split()[7] == ("yes" if is_proved() else "no") for line in lines[1:4]), lines
    assert re.match(r"a majority agrees: 3 of 3 serve in view \d+, the primary is ", lines[4]), lines
    path = os.path.join(host.root, "entries.ldif")
    with open(path, "w", encoding="utf-8") as file:
        file.write(f"dn: {SUFFIX}\nobjectClass: domain\ndc: example\n\ndn: {item(1)[0]}\nobjectClass: item\ncn: item1\nrank: 1\n")
    uris = [host.uri(index) for index in range(COUNT)]
    loaded = host.tool("dird-load", path, *uris, "--manager", MANAGER, "--password-file", host.path("/etc/dird/password"))
    assert loaded.startswith("2 records added") and loaded.endswith("; the last update is 2\n"), loaded
    host.end()
    for index in range(COUNT):
        host.start(index)
    host.listens()
    lines = host.status(0)
    assert [line.split()[3] for line in lines[1:4]].count("2") >= 2, lines
    saved = os.path.join(host.root, "saved.ldif")
    assert "2 entries, as of update " in host.tool("dird-backup", uris[0], SUFFIX, saved, "--at", "2")
    assert host.status(0, *uris)[4] == "3 of 3 serve; who is the primary isn't shown at clients' addresses: name those of --metrics"
    assert [line.split()[1:4] for line in host.status(0, *uris)[1:4]] == [["serves", "-", "2"]] * 3


def status_counts_a_majority(host: Host) -> None:
    """With one replica down a majority agrees, with two none does."""
    lines = host.status(0)
    leader = next(index for index in range(COUNT) if lines[1 + index].split()[1] == "primary")
    one, two = (leader + 1) % COUNT, (leader + 2) % COUNT
    host.end(one)
    lines = host.status(0)
    assert lines[4].startswith("a majority agrees: 2 of 3 serve in view "), lines
    assert "connection refused" in lines[1 + one], lines
    host.end(two)
    lines = host.status(1)
    assert lines[4].startswith("no majority agrees: "), lines
    end = time.time() + PATIENCE
    while "primary (no majority)" not in lines[1 + leader]:
        assert time.time() < end, lines
        time.sleep(0.2)
        lines = host.status(1)
    told_by(host.path(f"{PREFIX}/bin/dird-status"), "nonsense", status=2, env=environment())
    wrong = host.status(1, f"{HOST}:{host.ports[2 * leader + 1]}", host.monitor(one), host.monitor(two))
    assert "no replica's --metrics is there" in wrong[1] or "no answer in time" in wrong[1] or "it closed" in wrong[1], wrong


def samples_of(host: Host, index: int) -> str:
    """The page for Prometheus of a replica."""
    with urllib.request.urlopen(f"http://{host.monitor(index)}/metrics", timeout=20) as answer:
        return answer.read().decode()


def monitoring_names_what_replicas_show(host: Host) -> None:
    """Alerts, their tests and the dashboard name no figure that a replica doesn't show; promtool takes them, where it is installed."""
    with open(os.path.join(MONITORING, "dashboard.json"), encoding="utf-8") as file:
        board = json.load(file)
    queries = [target["expr"] for panel in board["panels"] for target in panel["targets"]] + [board["templating"]["list"][1]["query"]["query"]]
    with open(os.path.join(MONITORING, "alerts.yml"), encoding="utf-8") as file:
        alerts = file.read()
    with open(os.path.join(MONITORING, "alerts_test.yml"), encoding="utf-8") as file:
        series = file.read()
    index = next(it for it in range(COUNT) if f"r{it}" in host.processes)
    client = ldap.Client(HOST, host.ports[2 * index + 1])
    client.ask(ldap.compare(SUFFIX, "dc", "example"))
    client.close()
    page = samples_of(host, index)
    shown = {name for name, kind in re.findall(r"(?m)^# TYPE (\w+) (\w+)", page) for name in ([name] if kind != "histogram" else [f"{name}_bucket", f"{name}_sum", f"{name}_count"])}
    named = set(re.findall(r"\b(?:dird|process)_\w+", " ".join([*queries, *re.findall(r"(?m)^ +expr: (.*)", alerts), *re.findall(r"series: '(\w+)", series)])))
    assert named <= shown and len(named) > 15, (named - shown, shown)
    assert len(re.findall(r"- alert: (\w+)", alerts)) == 7
    labels = set(re.findall(r'[{,](\w+)="', page)) | {"job", "instance", "mountpoint"}
    assert set(re.findall(r'[{,] *(\w+)=~?"', " ".join([*queries, alerts]))) <= labels, labels
    if shutil.which("promtool") is None:
        print("left out: promtool is not installed")
        return
    assert told_by("promtool", "check", "metrics", input=page) == "", page
    told_by("promtool", "check", "config", "prometheus.yml", cwd=MONITORING)
    told_by("promtool", "test", "rules", "alerts_test.yml", cwd=MONITORING)
    rules = os.path.join(host.root, "queries.yml")
    with open(rules, "w", encoding="utf-8") as file:
        json.dump({"groups": [{"name": "queries", "rules": [{"record": f"query{at}", "expr": it.replace("$__rate_interval", "1m")} for at, it in enumerate(queries[:-1])]}]}, file)
    told_by("promtool", "check", "rules", rules)


def what_is_installed_can_be_followed(folder: str) -> None:
    """An install below a folder, its first start, its replicas, their end and their next start; status and monitoring beside them."""
    host = Host(folder)
    try:
        files_are_in_their_places(host)
        completion_is_that_of_the_help(host)
        units_are_hardened(host)
        for index in range(COUNT):
            host.copy_settings(f"sudo cp {PREFIX}/share/dird/replica.conf /etc/dird/one.conf", index)
            host.edit(index)
        a_first_start_cannot_be_done_wrong(host)
        replicas_start_by_their_units(host)
        monitoring_names_what_replicas_show(host)
        status_counts_a_majority(host)
    finally:
        host.end()


TESTS = (what_is_installed_can_be_followed,)
