"""Roots of Debian in folders, for tools that try what is installed: one that nothing runs in, and one in which systemd
runs. Both want systemd-nspawn, and to be root."""

import contextlib
import ctypes
import os
import pathlib
import re
import subprocess
import time

from clients import Wrong, want

LIMIT = 600  # seconds that a command may take
SOON = 60  # seconds in which systemd has started, or a service
STEP = 0.2  # seconds between two looks
ENVIRONMENT = ["env", "-i", "PATH=/usr/local/sbin:/usr/local/bin:/usr/sbin:/usr/bin:/sbin:/bin", "HOME=/root",
               "LC_ALL=C.UTF-8", "DEBIAN_FRONTEND=noninteractive"]
# Where dpkg, apt, systemd and the system keep names of their own; and where nothing is looked for.
OWN = ("var/lib/dpkg", "var/cache", "var/lib/apt", "var/lib/systemd", "var/lib/private", "etc")
PASSED_OVER = ("run", "proc", "sys", "dev", "tmp", "root", "var/log", "var/cache/man")
NOISE = "Attempted to remove disk file system "  # what systemd-nspawn says where it runs in a container


def is_so_soon(is_so):
    """Waits until it is so. Answers whether it has become so."""
    until = time.monotonic() + SOON
    while not is_so():
        if time.monotonic() > until:
            return False
        time.sleep(STEP)
    return True


class Root:
    """A root of Debian that nothing runs in but what is asked for."""

    def __init__(self, folder):
        self.folder = folder
        self.enter = ["systemd-nspawn", "--quiet", f"--directory={folder}", "--register=no", "--keep-unit", "--pipe"]

    def run(self, *words):
        """What a command comes to: its status, and what it prints on both outputs."""
        words = [*self.enter, *ENVIRONMENT, *map(str, words)]
        ran = subprocess.run(words, stdin=subprocess.DEVNULL, capture_output=True, text=True, errors="replace",
                             timeout=LIMIT, check=False)
        faults = [line for line in ran.stderr.splitlines(True) if line.strip() and not line.startswith(NOISE)]
        return ran.returncode, ran.stdout, "".join(faults)

    def get(self, *words, status=0):
        """What a command prints, where it ends with that status."""
        came, output, faults = self.run(*words)
        what = f"status {status} of {' '.join(map(str, words))}: {came} {output[-500:]} {faults[-500:]}"
        want(what, came == status)
        return output.strip()

    def path(self, name):
        return self.folder / name.lstrip("/")

    def text(self, name):
        return self.path(name).read_text(encoding="utf-8")

    def names(self):
        """All names in it, but where nothing is looked for."""
        for folder, folders, names in os.walk(self.folder):
            below = os.path.relpath(folder, self.folder)
            folders[:] = [it for it in folders if os.path.normpath(f"{below}/{it}") not in PASSED_OVER]
            yield from (os.path.normpath(f"{below}/{it}") for it in [*folders, *names])

    def note(self):
        """Notes which names there are now."""
        self.noted = set(self.names())

    def left(self, word):
        """The names that have come since, in order: where the system keeps its own, those alone that have the word."""
        own = tuple(f"{it}/" for it in OWN)
        return sorted(it for it in set(self.names()) - self.noted if word in it or not it.startswith(own))


class Booted(Root):
    """A root in which systemd runs, with a network of its own, in which this process asks and answers from then on."""

    def __enter__(self):
        words = [it for it in self.enter if it != "--pipe"]
        nothing = {it: subprocess.DEVNULL for it in ("stdin", "stdout", "stderr")}
        self.ran = subprocess.Popen([*words, "--private-network", "--boot"], **nothing)
        if not is_so_soon(self.is_running):
            self.__exit__()
            raise Wrong("systemd runs")
        with open(self.first / "ns/net", "rb") as it:
            want("its network", ctypes.CDLL(None).setns(it.fileno(), 0) == 0)
        return self

    def is_running(self):
        """Whether systemd has started. Then its process is known."""
        children = pathlib.Path(f"/proc/{self.ran.pid}/task/{self.ran.pid}/children")
        with contextlib.suppress(OSError, IndexError):
            first = children.read_text(encoding="utf-8").split()[0]
            self.first = pathlib.Path(f"/proc/{first}")
            self.enter = ["nsenter", f"--target={first}", "--mount", "--uts", "--ipc", "--net", "--pid"]
            return self.run("systemctl", "is-system-running")[1].strip() == "running"
        return False

    def __exit__(self, *_):
        self.ran.terminate()
        try:
            self.ran.wait(SOON)
        except subprocess.TimeoutExpired:
            self.ran.kill()
            self.ran.wait()

    def shown(self, unit, *names):
        """What systemd says of a unit, by these names."""
        lines = self.get("systemctl", "show", unit, *(f"--property={it}" for it in names)).splitlines()
        found = dict(line.split("=", 1) for line in lines)
        return [found[it] for it in names]

    def process(self, unit):
        """The folder in which this system tells of the unit's main process."""
        (number,) = self.shown(unit, "MainPID")
        for it in pathlib.Path("/proc").glob("[0-9]*"):
            with contextlib.suppress(OSError):
                numbers = re.search(r"NSpid:\s(.*)", (it / "status").read_text(encoding="utf-8"))[1].split()
                if numbers[1:] == [number] and os.readlink(it / "ns/pid") == os.readlink(self.first / "ns/pid"):
                    return it
        raise Wrong(f"a process of {unit}: {number}")
