"""An origin that does what none should, as the first part of a path says; the rest is answered as by `small_origin`."""

import contextlib
import socket
import time

from small_origin import LIMIT, Origin, fields_of, last_number, pattern, read_head, reset, with_head

LONGEST = 16 << 20  # octets of the longest body that a cache takes
PAUSE = 0.3  # seconds between what drips
PIECE = 1 << 20
KEPT = {"cache-control": "max-age=3600"}
STALE = {"cache-control": "max-age=1, stale-if-error=600"}
INTERIM = b"HTTP/1.1 103 \r\nlink: </style>\r\n\r\n"
BODY = pattern(LONGEST)


def sized(length, fields):
    return with_head(200, {**fields, "content-length": length}, b"")


def send_body(link, length):
    """So many octets, of which no copy is made."""
    link.sendall(memoryview(BODY)[:length])


# -- What it does behind a request's head: the origin, the link, the head, and what came behind it


def hangs(origin, link, *_):
    origin.released.wait()


def hangs_in_its_head(origin, link, *_):
    link.sendall(b"HTTP/1.1 200 \r\ncache-con")
    origin.released.wait()


def hangs_in_its_body(origin, link, *_):
    link.sendall(sized(10, KEPT) + b"hell")
    origin.released.wait()


def drips(origin, link, *_):
    for octet in sized(1000, KEPT) + bytes(1000):
        link.sendall(bytes([octet]))
        time.sleep(PAUSE)


def drips_interim(origin, link, *_):
    while not origin.released.is_set():
        link.sendall(INTERIM)
        time.sleep(PAUSE)


def streams(origin, link, head, _):
    """Events without end, as of a server that sends them."""
    drips_until_left(origin, link, head, {"transfer-encoding": "chunked"}, b"1\r\n.\r\n")


def streams_at_length(origin, link, head, _):
    """The same of a body whose length is told, which never comes to it."""
    drips_until_left(origin, link, head, {"content-length": LONGEST}, b".")


def drips_until_left(origin, link, head, fields, piece):
    """Its path is among those that stream until the other side has left."""
    path = path_of(head)
    origin.streaming.add(path)
    try:
        link.sendall(with_head(200, {"content-type": "text/event-stream", **fields}, b""))
        while not is_left_within(link, PAUSE):
            link.sendall(piece)
    finally:
        origin.streaming.discard(path)


def is_left_within(link, seconds):
    """Whether the other side, which says nothing more, leaves in that time."""
    link.settimeout(seconds)
    with contextlib.suppress(TimeoutError):
        return not link.recv(1)
    return False


def sends_without_end(link, octets):
    for _ in range(100_000):
        link.sendall(octets)


def interim_without_end(origin, link, *_):
    sends_without_end(link, INTERIM)


def head_without_end(origin, link, *_):
    sends_without_end(link, b"HTTP/1.1 200 \r\na: b" + b"b" * 4096)


def longest(origin, link, *_):
    link.sendall(sized(LONGEST, KEPT))
    send_body(link, LONGEST)


def too_long(origin, link, *_):
    link.sendall(sized(LONGEST + 1, KEPT))
    send_body(link, LONGEST)
    link.sendall(b"x")


def too_long_in_chunks(origin, link, *_):
    link.sendall(with_head(200, {**KEPT, "transfer-encoding": "chunked"}, b""))
    for octets in (memoryview(BODY)[:PIECE] for _ in range(LONGEST // PIECE)):
        link.sendall(b"%x\r\n" % PIECE)
        link.sendall(octets)
        link.sendall(b"\r\n")
    link.sendall(b"1\r\nx\r\n0\r\n\r\n")


def too_long_until_its_end(origin, link, *_):
    link.sendall(with_head(200, KEPT, b""))
    send_body(link, LONGEST)
    link.sendall(b"x")


def answers_early(origin, link, *_):
    """Before the request is whole, of which it reads no more."""
    link.sendall(sized(5, KEPT) + b"early")


def answers_early_and_reads(origin, link, head, rest):
    link.sendall(sized(5, KEPT) + b"early")
    swallowed(link, head, rest)


def swallowed(link, head, rest):
    """How many octets of a body come, none of which is kept."""
    came, length = len(rest), int(fields_of(head).get("content-length", 0))
    while came < length and (piece := link.recv(PIECE)):
        came += len(piece)
    return came


def swallows(origin, link, head, rest):
    told = b"%d" % swallowed(link, head, rest)
    link.sendall(with_head(200, {"content-length": len(told)}, told))


def heavy(origin, link, head, _):
    """A body of as many octets as the path says last, of which there is one copy for all."""
    length = last_number(path_of(head))
    link.sendall(sized(length, KEPT))
    send_body(link, length)


def garbage(origin, link, *_):
    link.sendall(bytes(range(255, -1, -1)) * 16)


def cuts(origin, link, *_):
    link.sendall(sized(10, KEPT) + b"hell")


def resets(origin, link, *_):
    link.sendall(sized(10, KEPT) + b"hell")
    time.sleep(PAUSE / 6)
    reset(link)


def falters(way):
    """The first time it answers well, and then it does that."""

    def does(origin, link, head, rest):
        path = path_of(head)
        with origin.lock:
            origin.counts[path] += 1
            is_first = origin.counts[path] == 1
        if is_first:
            link.sendall(sized(5, STALE) + b"hello")
        else:
            way(origin, link, head, rest)

    return does


def path_of(head):
    return head.split(" ", 2)[1]


FALTERING = (hangs, drips, garbage, cuts, resets)
WAYS = {way.__name__.replace("_", "-"): way for way in (
    hangs, hangs_in_its_head, hangs_in_its_body, drips, drips_interim, interim_without_end, head_without_end, longest,
    too_long, too_long_in_chunks, too_long_until_its_end, answers_early, answers_early_and_reads, swallows, heavy,
    streams, streams_at_length,
)} | {f"falters-{way.__name__}": falters(way) for way in FALTERING}


def kind_of(link):
    """The first part of the path of the request that comes, which is left unread."""
    came = b""
    while came.count(b" ") < 2:
        more = link.recv(4096, socket.MSG_PEEK)
        if len(more) == len(came):
            return ""
        came = more
    return came.split(b" ")[1].split(b"/")[1].decode("latin-1")


class HostileOrigin(Origin):
    def __init__(self):
        self.streaming = set()  # the paths of streams that go on
        super().__init__()

    def serve(self, link):
        link.settimeout(LIMIT)
        way = None
        with contextlib.suppress(OSError, IndexError):
            way = WAYS.get(kind_of(link))
        if not way:
            return super().serve(link)
        with link, contextlib.suppress(OSError):
            if read := read_head(link):
                way(self, link, *read)
