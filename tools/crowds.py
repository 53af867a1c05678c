"""Crowds of hostile clients for tools that try a cache: those that say little, read little, send little, and reset."""

import collections
import concurrent.futures
import contextlib
import itertools
import select
import socket
import struct
import subprocess
import sys
import threading
import time

import programs
from clients import LIMIT, Wrong, request, want
from small_origin import HOST, reset

BATCH = 1000  # connections that are made at once
SMALL = 16 << 10  # octets that a client that reads slowly has room for
PIECE = 1 << 16
LANES = 4  # processes that reset at once
ANSWERED = b"HTTP/1.1 200 "

Member = collections.namedtuple("Member", "link drips since")


def begun(port):
    """A connection that is being made, with room for little. Where it is closed, it is reset."""
    link = socket.socket()
    link.setsockopt(socket.SOL_SOCKET, socket.SO_RCVBUF, SMALL)
    link.setsockopt(socket.SOL_SOCKET, socket.SO_LINGER, struct.pack("ii", 1, 0))
    link.setblocking(False)
    link.connect_ex((HOST, port))
    return link


def await_connected(links):
    poll, left, until = select.poll(), len(links), time.monotonic() + LIMIT
    for link in links:
        poll.register(link, select.POLLOUT)
    while left and time.monotonic() < until:
        for number, _ in poll.poll(1000):
            poll.unregister(number)
            left -= 1
    want(f"all connect: {left} don't", not left)


def connected(port, count):
    """So many connections, made in batches, each with the moment before it."""
    links = []
    while len(links) < count:
        since = time.monotonic()
        batch = [begun(port) for _ in range(min(BATCH, count - len(links)))]
        links += [(link, since) for link in batch]
        await_connected(batch)
    return links


class Crowd:
    """Clients in one thread, of which half say nothing, and half one octet of a request at once and one behind each
    pause, until they are cut off. What each kind lived for stands in `lived`, in seconds."""

    def __init__(self, port, count, pause):
        self.port, self.count, self.pause = port, count, pause
        self.members, self.lived, self.is_over = {}, {True: [], False: []}, False
        self.octets, self.said = request("/kept/crowd", "X-Long: " + "x" * 1000), 0

    def __enter__(self):
        for number, (link, since) in enumerate(connected(self.port, 2 * self.count)):
            self.members[link.fileno()] = Member(link, number % 2 == 1, since)
        self.thread = threading.Thread(target=self.run, daemon=True)
        self.thread.start()
        return self

    def __exit__(self, *_):
        self.is_over = True
        self.thread.join(LIMIT)
        for member in self.members.values():
            member.link.close()

    def run(self):
        with select.epoll() as poll:
            for number in self.members:
                poll.register(number, select.EPOLLIN)
            until = 0
            while self.members and not self.is_over:
                if time.monotonic() >= until:
                    until = time.monotonic() + self.pause
                    self.drip()
                for number, _ in poll.poll(0.1):
                    self.hear(number)

    def drip(self):
        """One octet more of each that drips."""
        octet = self.octets[self.said : self.said + 1]
        self.said += 1
        for member in [member for member in self.members.values() if member.drips]:
            with contextlib.suppress(OSError):
                member.link.send(octet)

    def hear(self, number):
        """What comes is dropped; one that is at its end is gone."""
        member = self.members[number]
        with contextlib.suppress(ConnectionError):
            if member.link.recv(4096):
                return
        del self.members[number]
        member.link.close()
        self.lived[member.drips].append(time.monotonic() - member.since)

    def goes_within(self, seconds):
        """Waits until all are gone, so long at most. Answers how many are left."""
        self.thread.join(seconds)
        return len(self.members)


class Slow:
    """Clients in threads of their own, each of which takes or gives its body slowly, until they are told to hurry."""

    def __init__(self, port, count, does, path, body):
        self.port, self.count, self.does, self.path, self.body = port, count, does, path, memoryview(body)
        self.hurry, self.links, self.until = threading.Event(), [], float("inf")

    def __enter__(self):
        self.pool = concurrent.futures.ThreadPoolExecutor(self.count)
        self.runs = [self.pool.submit(self.run, number) for number in range(self.count)]
        return self

    def __exit__(self, *_):
        self.until = 0
        self.hurry.set()
        for link in self.links:
            with contextlib.suppress(OSError):
                link.shutdown(socket.SHUT_RDWR)
        self.pool.shutdown()

    def run(self, number):
        with socket.socket() as link:
            link.setsockopt(socket.SOL_SOCKET, socket.SO_RCVBUF, SMALL)
            link.setsockopt(socket.SOL_SOCKET, socket.SO_LINGER, struct.pack("ii", 1, 0))
            link.settimeout(1)
            self.links.append(link)
            try:
                link.connect((HOST, self.port))
                return self.does(self, link, self.path(number))
            except TimeoutError:
                return "stuck"
            except OSError as trouble:
                return type(trouble).__name__

    def receive(self, link):
        """What comes next. Once they hurry, it may take a while, and not for ever."""
        while True:
            with contextlib.suppress(TimeoutError):
                return link.recv(PIECE if self.hurry.is_set() else 2048)
            if time.monotonic() > self.until:
                raise TimeoutError

    def outcomes(self, seconds):
        """How many came to what, if they hurry from now on and have so many seconds."""
        self.until = time.monotonic() + seconds
        self.hurry.set()
        return collections.Counter(run.result() for run in self.runs)


def head_of_reply(slow, link):
    """The head, and what came behind it."""
    came = b""
    while b"\r\n\r\n" not in came:
        piece = slow.receive(link)
        if not piece:
            return b"", b""
        came += piece
    head, _, rest = came.partition(b"\r\n\r\n")
    return head, rest


def reads_slowly(slow, link, path):
    """Answers whether the body came whole, or what came in place of it."""
    link.sendall(request(path))
    head, piece = head_of_reply(slow, link)
    if not head.startswith(ANSWERED):
        return head[9:12].decode() or "cut"
    at = 0
    while piece:
        if piece != slow.body[at : at + len(piece)]:
            return "wrong"
        at += len(piece)
        if at == len(slow.body):
            return "whole"
        slow.hurry.wait(0.2)
        piece = slow.receive(link)
    return "cut"


def sends_slowly(slow, link, path):
    """Most of its body at once, and the rest octet by octet. Answers whether all of it arrived, or what came in place
    of that."""
    link.sendall(request(path, f"Content-Length: {len(slow.body)}", method="PUT"))
    with contextlib.suppress(ConnectionError):
        send_body(slow, link)
    head, told = head_of_reply(slow, link)
    if not head.startswith(ANSWERED):
        return head[9:12].decode() or "cut"
    return "whole" if told == b"%d" % len(slow.body) else "wrong"


def send_body(slow, link):
    at, most = 0, len(slow.body) * 15 // 16
    while at < len(slow.body):
        hurries = at < most or slow.hurry.is_set()
        with contextlib.suppress(TimeoutError):
            at += link.send(slow.body[at : at + PIECE] if hurries else slow.body[at : at + 1])
        if time.monotonic() > slow.until:
            raise TimeoutError
        if not hurries:
            slow.hurry.wait(1)


# -- Clients that reset


def in_a_request(link, path):
    link.sendall(request(path)[:-6])


def in_a_reply(link, path):
    link.sendall(request(path))
    link.recv(1000)


def behind_its_end(link, path):
    link.sendall(request(path))
    link.shutdown(socket.SHUT_WR)


WAYS = (in_a_request, in_a_reply, behind_its_end)


def reset_often(port, path, count):
    """One connection after another, in each way by turns."""
    for way in itertools.islice(itertools.cycle(WAYS), count):
        with socket.socket() as link:
            link.setsockopt(socket.SOL_SOCKET, socket.SO_RCVBUF, SMALL)
            link.settimeout(LIMIT)
            link.connect((HOST, port))
            with contextlib.suppress(ConnectionError):
                way(link, path)
            reset(link)


def resets(port, path, count):
    """So many connections that are reset, by processes of their own."""
    words = [sys.executable, programs.HERE / "tools/crowds.py", str(port), path, str(count // LANES)]
    rans = [subprocess.Popen(words, stderr=subprocess.PIPE, text=True) for _ in range(LANES)]
    for ran in rans:
        _, said = ran.communicate()
        if ran.returncode:
            raise Wrong(f"clients that reset: {said[-300:]}")


def main(words):
    """Resets, as a process of its own: the port, the path, and how many there are."""
    port, path, count = words
    reset_often(int(port), path, int(count))


if __name__ == "__main__":
    main(sys.argv[1:])
