"""The scripts of hc_command_cases as sockets can play them: what their clients say, and what their origin answers."""

import collections
import contextlib
import datetime
import email.utils
import re
import socket
import time

import programs
from clients import Client, request
from small_origin import Origin, reset

FOLDER = programs.HERE / "crates/hc_command_cases/data"
PLACE = re.compile(rb"(?i)(\r\nhost: *|http://)([a-z0-9])")
OF_SCRIPT = re.compile(r"s(\d+)-")
DATE = re.compile(rb"[A-Z][a-z]{2}, \d\d [A-Z][a-z]{2} \d{4} \d\d:\d\d:\d\d GMT")
MASKED = re.compile(rb"(?m)(^(?i:date|age): |;ttl=)-?[^\r;]*")
SILENCE = 5  # seconds behind which a client ends that isn't answered
NONE = b"HTTP/1.1 404 \r\ncontent-length: 0\r\n\r\n"

Event = collections.namedtuple("Event", "kind number moment octets")


def events_of(octets):
    """The events of a script, in their order."""
    place = octets.index(b"\n", octets.index(b"\n") + 1) + 1
    while place < len(octets):
        end = octets.index(b"\n", place)
        kind, *numbers = octets[place:end].decode().split(" ")
        number, moment, length, *_ = [*map(int, numbers), 0]
        place = end + 1
        yield Event(kind, number, moment, octets[place : place + length] if len(numbers) == 3 else b"")
        place += length + 1 if len(numbers) == 3 else 0


def shifted(octets, seconds):
    """The octets with other dates, so many seconds later."""

    def later(found):
        with contextlib.suppress(ValueError, OverflowError):
            then = email.utils.parsedate_to_datetime(found[0].decode()) + datetime.timedelta(seconds=seconds)
            return email.utils.format_datetime(then, usegmt=True).encode()
        return found[0]

    return DATE.sub(later, octets)


class Script:
    """What is said in one of them, at Hosts that no other has. Its first moment is the one at which it is played."""

    def __init__(self, number, path):
        self.number, self.path, self.name = number, path, path.stem
        self.clients, self.answers = collections.defaultdict(bytes), collections.defaultdict(bytes)
        self.failing, self.asked, self.later = set(), 0, 0
        octets = path.read_bytes()
        self.needs_time = b"stale-while-revalidate" in octets
        events = list(events_of(octets))
        self.first = events[0].moment if events else 0
        for event in events:
            self.hear(event)

    def hear(self, event):
        if event.kind == "client":
            self.clients[event.number] += event.octets
        elif event.kind == "origin":
            self.answers[event.number] += event.octets
        elif event.kind == "fail":
            self.failing.add(event.number)

    def own(self, octets):
        """The octets with its Hosts, and the dates as if it had begun now."""
        return shifted(PLACE.sub(rb"\1s%d-\2" % self.number, octets), self.later)

    def play(self, port):
        """What each of its clients got, one after another, who all ask for one thing more in the end."""
        self.later, self.asked = int(time.time()) - self.first, 0
        last = request("/last", "Connection: close")
        return [self.got(port, self.own(octets + last)) for octets in self.clients.values()]

    def got(self, port, octets):
        """All that comes, with Date, Age and `ttl` masked, and the other dates as the script has them."""
        came = b""
        with Client(port) as client, contextlib.suppress(ConnectionError):
            client.send(octets)
            client.link.settimeout(SILENCE)
            while piece := received(client):
                came += piece
        return shifted(MASKED.sub(rb"\1*", came), -self.later)


def received(client):
    """What comes next. A client that waits for long says that it is at its end."""
    try:
        return client.link.recv(1 << 18)
    except TimeoutError:
        client.link.shutdown(socket.SHUT_WR)
        return client.link.recv(1 << 18)


def scripts():
    """Those whose clients say anything and that need no time to pass."""
    found = [Script(number, path) for number, path in enumerate(sorted(FOLDER.glob("*.hcs")))]
    return [it for it in found if it.clients and not it.needs_time]


class ScriptedOrigin(Origin):
    """Answers the forwards of each script as the script does, in their order."""

    def __init__(self, found):
        self.scripts = {it.number: it for it in found}
        super().__init__()

    def anew(self, script):
        """The same script at other Hosts."""
        again = Script(len(self.scripts) + 1000, script.path)
        self.scripts[again.number] = again
        return again

    def answer(self, link, asked):
        found = OF_SCRIPT.match(asked.fields.get("host", ""))
        if not found:
            return link.sendall(NONE)
        script = self.scripts[int(found[1])]
        script.asked += 1
        if script.asked in script.failing:
            return reset(link)
        link.sendall(script.own(script.answers[script.asked]) or NONE)
