"""Three hosts of this machine, for the lines of docs/OPERATIONS.md as they stand there: each has a network of its own with the page's address, its own file system over this one's, from which the
checkout is hidden once the program is installed, and the user that the page makes. `sudo` and `editor` are stand-ins, and so is `systemctl`, which runs a unit's command line as that user, with the
unit's capabilities and file mask; hardening is tested by systemd-analyze in `installed`. It needs root, network namespaces, overlays and systemd's tools for users and files."""
from __future__ import annotations

import inspect
import os
import re
import shutil
import signal
import subprocess
import time

from replicas import PASSWORD, TOP, is_proved, program
from serving import PATIENCE

COUNT = 3
WANTED = ("unshare", "nsenter", "ip", "mount", "chroot", "setpriv", "systemd-sysusers", "systemd-tmpfiles")
PATH = "/tmp/stand-ins:/usr/local/bin:/usr/sbin:/usr/bin:/sbin:/bin"
# What systemd-tmpfiles ends with where lines of other snippets can't be followed in a namespace.
TMPFILES = (0, 65, 73)


def words_of_unit(unit: str, instance: str) -> tuple[list[str], dict[str, str]]:
    """The command line of a unit with its settings put in, as systemd does it, and its environment."""
    with open(unit, encoding="utf-8") as file:
        text = file.read().replace("%i", instance)
    with open(re.findall(r"(?m)^EnvironmentFile=(.*)", text)[0], encoding="utf-8") as file:
        settings = dict(re.findall(r"(?m)^(\w+)=(.*)", file.read()))
    words: list[str] = []
    for word in re.findall(r"(?m)^ExecStart=(.*)", text)[0].split():
        whole = re.fullmatch(r"\$(\w+)", word)
        words += settings[whole[1]].split() if whole else [re.sub(r"\$\{(\w+)\}", lambda found: settings[found[1]], word)]
    return words, dict(re.findall(r"(?m)^Environment=(\w+)=(.*)", text))


# `systemctl start|enable --now UNIT`, and `systemctl boot`, which starts what is enabled.
SYSTEMCTL = '''#!/usr/bin/python3
import os, re, subprocess, sys

ENABLED = "/etc/enabled"


''' + inspect.getsource(words_of_unit) + '''

def start(name):
    kind, _, instance = name.partition("@")
    unit = next(it for it in (f"/usr/local/lib/systemd/system/{kind}@.service", f"/usr/lib/systemd/system/{kind}@.service") if os.path.exists(it))
    text = open(unit).read().replace("%i", instance)
    for needed in re.findall("(?m)^ConditionPathExists=(.*)", text):
        if not os.path.exists(needed):
            sys.exit(f"{name}: {needed} is missing")
    words, environment = words_of_unit(unit, instance)
    kept = re.findall("(?m)^AmbientCapabilities=CAP_(.*)", text)
    capabilities = ["--ambient-caps", f"+{kept[0].lower()}", "--inh-caps", f"+{kept[0].lower()}", "--bounding-set", f"-all,+{kept[0].lower()}"] if kept else ["--bounding-set", "-all"]
    words = ["setpriv", "--reuid", "dird", "--regid", "dird", "--init-groups", "--no-new-privs", *capabilities, *words]
    environment = {"PATH": "/usr/local/sbin:/usr/local/bin:/usr/sbin:/usr/bin:/sbin:/bin", **environment}
    os.umask(0o077)
    if "Type=oneshot" in text:
        sys.exit(subprocess.run(words, cwd="/", env=environment).returncode)
    with open("/run/dird.log", "ab") as log:
        process = subprocess.Popen(words, cwd="/", env=environment, stdin=subprocess.DEVNULL, stdout=log, stderr=log, start_new_session=True)
    with open("/run/dird.pid", "w") as file:
        file.write(str(process.pid))


if sys.argv[1] == "boot":
    for name in open(ENABLED).read().split():
        start(name)
elif sys.argv[1:3] == ["enable", "--now"]:
    with open(ENABLED, "a") as file:
        file.write(sys.argv[3] + "\\n")
    start(sys.argv[3])
elif sys.argv[1] == "start":
    start(sys.argv[2])
else:
    sys.exit("no stand-in for this")
'''
# Changes what an operator has to change: which replica it is, its address for monitors, its schema; and the password.
EDITOR = f'''#!/bin/sh
set -e
sed -i "s/^ID=.*/ID=$((HOST - 1))/; s/^OPTIONS=.*/OPTIONS=--metrics 10.0.0.$HOST:9389 --schema \\/etc\\/dird\\/people.schema MORE/" "$1"
echo {PASSWORD} > "$2"
'''
SUDO = '#!/bin/sh\nexec "$@"\n'


class Hosts:
    """The hosts, each a process that holds its namespaces."""

    def __init__(self, folder: str):
        self.folder = folder
        self.holders: list[subprocess.Popen] = []
        try:
            self._make()
        except BaseException:
            self.end()
            raise

    def _make(self) -> None:
        """The namespaces, a bridge in one more of them, and each host's files."""
        self.holders = [subprocess.Popen(["unshare", "--mount", "--net", "sleep", "100000"], stdin=subprocess.DEVNULL) for _ in range(COUNT + 1)]
        end = time.time() + PATIENCE
        while any(os.readlink(f"/proc/{it.pid}/ns/net") == os.readlink("/proc/self/ns/net") or os.readlink(f"/proc/{it.pid}/ns/mnt") == os.readlink("/proc/self/ns/mnt") for it in self.holders):
            assert time.time() < end and all(it.poll() is None for it in self.holders)
            time.sleep(0.01)
        bridge = COUNT
        self.inside(bridge, "ip link add bridge0 type bridge && ip link set bridge0 up")
        for index in range(COUNT):
            self.inside(bridge, f"ip link add port{index} type veth peer name net0 netns /proc/{self.holders[index].pid}/ns/net && ip link set port{index} master bridge0 up")
            self.inside(index, f"ip link set lo up && ip addr add 10.0.0.{index + 1}/24 dev net0 && ip link set net0 up")
            self.inside(index, self._files(index))
            for name, text in (("sudo", SUDO), ("systemctl", SYSTEMCTL), ("editor", EDITOR.replace("MORE", "" if is_proved() else "--unproved"))):
                self.write(index, f"/tmp/stand-ins/{name}", text, 0o755)

    def _files(self, index: int) -> str:
        """What makes a host's file system, below a folder of its own."""
        at = os.path.join(self.folder, str(index))
        os.makedirs(at)
        devices = "; ".join(f"mknod -m 666 {at}/root/dev/{name} c 1 {minor}" for name, minor in (("null", 3), ("zero", 5), ("random", 8), ("urandom", 9)))
        return (f"set -e; mount --make-rprivate /; mount -t tmpfs tmpfs {at}; mkdir {at}/upper {at}/work {at}/root; mount -t overlay overlay -o lowerdir=/,upperdir={at}/upper,workdir={at}/work {at}/root; "
                f"mount --bind /proc {at}/root/proc; mount -o remount,bind,ro {at}/root/proc; mount -t tmpfs tmpfs {at}/root/dev; mount -t tmpfs tmpfs {at}/root/run; mount -t tmpfs tmpfs {at}/root/tmp; {devices}; "
                f"rm -rf {at}/root/etc/dird {at}/root/var/lib/dird; mkdir {at}/root/tmp/stand-ins {at}/root/tmp/repository; mount --bind {TOP} {at}/root/tmp/repository; "
                f"touch {at}/root/tmp/program; mount --bind {program()} {at}/root/tmp/program")

    def inside(self, index: int, line: str) -> None:
        """Runs a line in a host's namespaces, over this machine's files."""
        run = subprocess.run(["nsenter", "--target", str(self.holders[index].pid), "--mount", "--net", "bash", "-c", line], stdout=subprocess.PIPE, stderr=subprocess.STDOUT, text=True, timeout=120)
        assert run.returncode == 0, (line, run.stdout)

    def root(self, index: int) -> str:
        return os.path.join(self.folder, str(index), "root")

    def write(self, index: int, name: str, text: str, mode: int = 0o644) -> None:
        """Writes a file of a host."""
        path = f"/proc/{self.holders[index].pid}/root{self.root(index)}{name}"
        with open(path, "w", encoding="utf-8") as file:
            file.write(text)
        os.chmod(path, mode)

    def run(self, index: int, line: str, statuses: tuple[int, ...] = (0,), folder: str = "/root") -> str:
        """What a line prints at a host, with one of these statuses."""
        words = ["nsenter", "--target", str(self.holders[index].pid), "--mount", "--net", "chroot", self.root(index), "env", "-i", f"PATH={PATH}", f"HOST={index + 1}", "HOME=/root", *self.of_install(index)]
        run = subprocess.run([*words, "bash", "-c", f"cd {folder} && {line}"], stdin=subprocess.DEVNULL, stdout=subprocess.PIPE, stderr=subprocess.STDOUT, text=True, timeout=300)
        assert run.returncode in statuses, (index, line, run.returncode, run.stdout)
        return run.stdout

    def of_install(self, index: int) -> list[str]:
        """The setting by which `tools/install` finds the program, while it may."""
        return ["DIRD=/tmp/program"] if os.path.exists(f"/proc/{self.holders[index].pid}/root{self.root(index)}/tmp/repository/tools") else []

    def install(self, index: int, line: str) -> None:
        """The page's line in the checkout, which is hidden then, wherever it is."""
        self.run(index, line + ("" if is_proved() else " --unproved"), folder="/tmp/repository")
        self.hide(index)

    def hide(self, index: int) -> None:
        """Hides the checkout and the program there."""
        at = self.root(index)
        self.inside(index, f"umount {at}/tmp/repository {at}/tmp/program && mkdir -p {at}{TOP} && mount -t tmpfs tmpfs {at}{TOP}")

    def power_cut(self) -> None:
        """Ends all replicas at once."""
        for index in range(COUNT):
            self.run(index, "kill -9 $(cat /run/dird.pid)")

    def wait_for(self, index: int, line: str, wanted: str) -> str:
        """What a line prints, once that has these words."""
        end = time.time() + PATIENCE
        while wanted not in (text := self.run(index, line, (0, 1))):
            assert time.time() < end, (line, wanted, text, self.run(0, "cat /run/dird.log"))
            time.sleep(0.2)
        return text

    def end(self) -> None:
        """Ends what runs at each host, and the hosts."""
        for index, holder in enumerate(self.holders):
            for name in os.listdir("/proc"):
                try:
                    if name.isdigit() and int(name) != holder.pid and os.readlink(f"/proc/{name}/ns/net") == os.readlink(f"/proc/{holder.pid}/ns/net"):
                        os.kill(int(name), signal.SIGKILL)
                except (OSError, ProcessLookupError):
                    pass
            holder.kill()
            holder.wait()


def can_be_made() -> str:
    """Why there can be no hosts here; empty where there can."""
    if os.geteuid() != 0:
        return "it needs root"
    missing = [it for it in WANTED if shutil.which(it) is None] + [it for it in ("/usr/bin/python3",) if not os.path.exists(it)]
    if missing:
        return f"{', '.join(missing)} not installed"
    tried = subprocess.run(["unshare", "--mount", "--net", "bash", "-c", "mount -t tmpfs tmpfs /mnt && mkdir /mnt/u /mnt/w /mnt/r && mount -t overlay overlay -o lowerdir=/,upperdir=/mnt/u,workdir=/mnt/w /mnt/r "
                            "&& ip link add bridge0 type bridge && ip link add port0 type veth peer name port1"], stdout=subprocess.PIPE, stderr=subprocess.STDOUT, text=True)
    return f"namespaces: {tried.stdout.strip()}" if tried.returncode else ""
