"""A running `hcache proxy` for tools that try it, what its recording tells, and origins of processes of their own."""

import collections
import concurrent.futures
import contextlib
import functools
import os
import pathlib
import re
import resource
import signal
import socket
import subprocess
import sys
import threading
import time

import programs
from clients import LIMIT, Asker, Wrong, want
from small_origin import HOST

HCACHE = []  # the words by which it is run
TOOLS = pathlib.Path(__file__).resolve().parent
AT_ONCE = 0.5  # seconds within which a reply that waits for nothing comes
LINGERS = 3  # seconds that may pass behind a stop beside its drain
DRAIN = 8  # seconds of a drain, where none are said
WAIT = 2  # seconds that may pass behind a deadline

LISTENING = re.compile(r"hcache: listening at (.+), before (.+), with a store of (\d+) keys and (\d+) bytes")
WRONG = re.compile(
    r"hcache: (requests were refused|responses failed|clients were cut off), since (.+): (\d+) times?, the last (.+)"
)

Record = collections.namedtuple("Record", "kind number octets")


def words_of(origin, record=None, *words, listen=f"{HOST}:0"):
    recorded = ["--record", record] if record else []
    words = [*HCACHE, "proxy", "--listen", listen, "--origin", origin, *recorded, *words]
    return list(map(str, words))


@functools.cache
def options_of_proxy():
    """Those that the program's help tells."""
    words = [*map(str, HCACHE), "proxy", "--help"]
    said = subprocess.run(words, capture_output=True, text=True, check=False).stdout
    return set(re.findall(r"--[a-z-]+", said))


def limited(files):
    """What has a process open at most so many files, before it starts."""
    return lambda: resource.setrlimit(resource.RLIMIT_NOFILE, (files, files))


class ListensNot(Wrong):
    """A proxy that doesn't say that it listens."""


class Proxy:
    """A running `hcache proxy`."""

    def __init__(self, origin, record=None, *words, listen=f"{HOST}:0", by=programs.as_launched, before=None):
        self.words, self.record, self.before = by(words_of(origin, record, *words, listen=listen)), record, before
        self.said, self.is_told = [], threading.Event()

    def __enter__(self):
        how = {"stdin": subprocess.DEVNULL, "stdout": subprocess.PIPE, "stderr": subprocess.PIPE}
        how |= {"text": True, "errors": "replace", "preexec_fn": self.before}
        self.ran = subprocess.Popen(self.words, **how)
        self.hears = threading.Thread(target=self.hear, daemon=True)
        self.hears.start()
        self.is_told.wait(LIMIT)
        found = [found for line in self.said if (found := LISTENING.fullmatch(line))]
        if not found:
            with contextlib.suppress(subprocess.TimeoutExpired):
                self.ran.wait(1)
            self.__exit__()
            raise ListensNot(f"the line that it listens: {self.said}")
        self.listens = found[0][1]
        self.port = int(self.listens.split(", ")[0].rsplit(":", 1)[1])
        return self

    def hear(self):
        """Keeps what it says."""
        for line in self.ran.stderr:
            self.said.append(line.rstrip("\n"))
            if LISTENING.fullmatch(self.said[-1]):
                self.is_told.set()
        self.is_told.set()

    def __exit__(self, *_):
        self.ran.kill()
        self.ran.wait()
        self.hears.join(LIMIT)
        self.ran.stdout.close()
        self.ran.stderr.close()

    def failures(self):
        """What it said of responses that failed and of clients that were cut off: why, and how many, line by line."""
        found = [WRONG.fullmatch(line) for line in self.said if not LISTENING.fullmatch(line)]
        want(f"lines that are known: {self.said}", all(found))
        return [(it[2], int(it[3])) for it in found if it[1] != "requests were refused"]

    def wrongs(self):
        """What it said of requests that it refused, of responses that failed and of clients that were cut off: what befell,
        why, how often in all, and where it was last."""
        told = {}
        for line in self.said:
            if found := WRONG.fullmatch(line):
                befell, why, count, last = found.groups()
                told[befell, why] = (told.get((befell, why), (0,))[0] + int(count), last)
        return told

    def resident(self):
        """Its resident memory, in KiB."""
        status = pathlib.Path(f"/proc/{self.ran.pid}/status").read_text(encoding="utf-8")
        return int(re.search(r"VmRSS:\s+(\d+)", status)[1])

    def descriptors(self):
        """Those that it has open."""
        return sorted(map(int, os.listdir(f"/proc/{self.ran.pid}/fd")))

    def cpu_seconds(self):
        """Those that it took so far."""
        fields = pathlib.Path(f"/proc/{self.ran.pid}/stat").read_text(encoding="utf-8").rsplit(")", 1)[1].split()
        return (int(fields[11]) + int(fields[12])) / os.sysconf("SC_CLK_TCK")

    def stop(self, which=signal.SIGTERM):
        self.ran.send_signal(which)

    def ends_well(self, drain=DRAIN):
        """Ends with 0 within the time, and its recording is right. Answers what the audit says."""
        begun, seconds = time.monotonic(), drain + LINGERS
        try:
            status = self.ran.wait(seconds)
        except subprocess.TimeoutExpired:
            raise Wrong(f"an end within {seconds} seconds") from None
        self.took = time.monotonic() - begun
        self.hears.join(LIMIT)
        want(f"status 0: {status} {self.said}", status == 0)
        want("nothing on standard output", not self.ran.stdout.read())
        return audited(self.record) if self.record else ""

    def stops_well(self, drain=DRAIN):
        self.stop()
        return self.ends_well(drain)


def audited(record):
    """The line of the audit, where it is yes and each request has its reply."""
    line, faults = judged(record)
    want(f"yes: {line} {faults}", line.startswith("yes "))
    count = collections.Counter(it.kind for it in records(record.read_bytes()))
    want(f"each request has its reply: {count}", count["q"] == count["a"])
    return line


def judged(record):
    """The line of the audit, and what it says of faults."""
    words = [*HCACHE, "audit", "--errors-only", record]
    ran = subprocess.run(words, capture_output=True, text=True, check=False)
    line = ran.stdout.strip()
    want(f"the status of its line: {ran.returncode} {line}", (ran.returncode == 0) == line.startswith("yes "))
    return line, ran.stderr


def records(octets):
    """The records that are whole."""
    place = octets.find(b"\n") + 1
    while place > 0 and (end := octets.find(b"\n", place)) >= 0:
        kind, number, _, length, *_ = octets[place:end].split(b" ")
        place = end + int(length) + 2
        if place > len(octets):
            return
        yield Record(kind.decode(), int(number), octets[end + 1 : place - 1])


def right_or_torn(record):
    """Whether it is torn in its last record; else it is right."""
    line, faults = judged(record)
    is_torn = re.fullmatch(r"malformed \d+ 3 Torn", line)
    want(f"yes, or torn at its end: {line} {faults}", is_torn or line.startswith("yes "))
    return bool(is_torn)


def is_recorded(record, seen):
    """As many replies for each path as clients have whole."""
    asked, told = {}, collections.Counter()
    for it in records(record.read_bytes()):
        if it.kind == "q":
            asked[it.number] = it.octets.split(b" ", 2)[1].decode()
        elif it.kind == "a":
            told[asked[it.number]] += 1
    want(f"each reply that was seen is recorded: {seen - told} isn't", seen <= told)


def ends_of_forwards(record):
    """For each method and path what its forwards came to: an r for a response, and an x where there was none."""
    asked, ends = {}, collections.defaultdict(str)
    for it in records(record.read_bytes()):
        if it.kind == "f":
            asked[it.number] = b" ".join(it.octets.split(b" ", 2)[:2]).decode()
        elif it.kind in "rx":
            ends[asked[it.number]] += it.kind
    return dict(ends)


def kinds_of_files(room):
    """Names of files of each kind that isn't recorded to."""
    pipe, folder, path = room / "pipe", room / "folder", room / "socket"
    os.mkfifo(pipe)
    folder.mkdir()
    with socket.socket(socket.AF_UNIX) as it:
        it.bind(str(path))
    return {"a pipe": pipe, "a directory": folder, "a socket": path, "a device": "/dev/zero"}


@contextlib.contextmanager
def askers(proxy, count, kind=Asker):
    """Clients that ask until they are cut off, or end by themselves. In the end all have."""
    asking = [kind(proxy.port, number) for number in range(count)]
    with concurrent.futures.ThreadPoolExecutor(count) as pool:
        runs = [pool.submit(asker.ask_on) for asker in asking]
        try:
            yield asking
        except BaseException:
            proxy.ran.kill()
            raise
        for run in runs:
            run.result()


# -- Origins


@contextlib.contextmanager
def quick_origin():
    """An origin in a process of its own: its address."""
    words = [sys.executable, TOOLS / "small_origin.py"]
    with subprocess.Popen(words, stdout=subprocess.PIPE, text=True) as ran:
        try:
            yield f"{HOST}:{int(ran.stdout.readline())}"
        finally:
            ran.kill()


@contextlib.contextmanager
def full_queue():
    """The address of what accepts no connection, and has no room for one."""
    with contextlib.ExitStack() as stack:
        listener = stack.enter_context(socket.create_server((HOST, 0), backlog=0))
        for _ in range(4):
            link = stack.enter_context(socket.socket())
            link.setblocking(False)
            link.connect_ex(listener.getsockname())
        yield f"{HOST}:{listener.getsockname()[1]}"


def seconds_until(is_so, most):
    """Waits until it is so, that long at most. Answers the seconds that passed."""
    begun = time.monotonic()
    while not is_so() and time.monotonic() < begun + most:
        time.sleep(0.02)
    return time.monotonic() - begun


def timed(ask):
    begun = time.monotonic()
    reply = ask()
    return reply, time.monotonic() - begun
