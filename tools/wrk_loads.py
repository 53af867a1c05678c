"""Loads by wrk on processors of their own, and what it says of them."""

import os
import re
import subprocess

UNITS = {"us": 0.001, "ms": 1, "s": 1000, "m": 60_000}


def divided():
    """The processor of the one that serves, which is the first, and the others."""
    processors = sorted(os.sched_getaffinity(0))
    return processors[0], processors[1:] or processors


def pinned(processors, *words):
    """The words that run a command on those processors alone."""
    return ["taskset", "-c", ",".join(map(str, processors)), *map(str, words)]


def wrk(url, connections, seconds, processors):
    """What wrk prints of a load by two threads."""
    words = ["wrk", "-t2", f"-c{connections}", f"-d{seconds}s", "--latency", "--timeout", "20s", url]
    return subprocess.run(pinned(processors, *words), capture_output=True, text=True, check=True).stdout


def requests(said):
    """How many requests wrk made."""
    return int(re.search(r"(\d+) requests in", said)[1])


def trouble(said):
    """What wrk says of errors, or nothing."""
    found = re.search(r"(Socket errors|Non-2xx).*", said)
    return found[0] if found else ""


def milliseconds(said, share):
    """How long so many of a hundred requests took at most."""
    found = re.search(rf"^ +{share}%\s+([\d.]+)(us|ms|s|m) *$", said, re.MULTILINE)
    return float(found[1]) * UNITS[found[2]]
