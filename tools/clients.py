"""Clients of every kind for tools that try a cache before `small_origin`: what each asks, and what it has to get."""

import collections
import concurrent.futures
import contextlib
import fnmatch
import hashlib
import itertools
import re
import socket
import sys
import threading
import time

from small_origin import HOST, MODIFIED, fields_of, last_number, pattern, reset

OUTLIVES = 3.2  # seconds behind which what lives for two is stale, whatever the fractions

STORED = "hcache;fwd=uri-miss;stored"
PASSED = "hcache;fwd=uri-miss"
COLLAPSED = "hcache;fwd=uri-miss;collapsed"
HIT = "hcache;hit;ttl=*"
STALE_HIT = "hcache;hit;ttl=-*"
VALIDATED = "hcache;fwd=stale;fwd-status=304"
METHOD = "hcache;fwd=method"
BYPASS = "hcache;fwd=bypass"
OWN = ""  # a reply of the cache's own has no mark

BATCH = 50  # requests that are asked at once
BATCHES = 20  # of a connection
LARGE = 4 << 20  # octets of a large body
LIMIT = 60  # seconds that anything may take


class Wrong(Exception):
    """Something else came than is wanted."""


def want(what, is_so):
    if not is_so:
        raise Wrong(what)


class Reply(collections.namedtuple("Reply", "status fields body")):
    @property
    def mark(self):
        return self.fields.get("cache-status", OWN)

    def closes(self):
        return self.fields.get("connection") == "close"


def got(reply, status, mark, body=None):
    """Compares a reply with what is wanted; a mark may have a star for anything."""
    is_so = reply.status == status and fnmatch.fnmatchcase(reply.mark, mark) and body in (None, reply.body)
    shown = f"{status} {mark!r}, {body and body[:40]}: {reply.status} {reply.mark!r}, {reply.body[:40]}"
    want(shown, is_so)
    want(f"a hit has an Age: {reply.fields}", ";hit" not in reply.mark or "age" in reply.fields)
    return reply


def text(path, time=1, method="GET", tongue=""):
    """What the origin says."""
    return f"{method} {path} {time} {tongue}\n".encode()


def request(path, *lines, method="GET", body=b"", version="1.1"):
    sized = [f"Content-Length: {len(body)}"] if body else []
    head = [f"{method} {path} HTTP/{version}", "Host: h", *lines, *sized, "", ""]
    return "\r\n".join(head).encode("latin-1") + body


KEPT = request("/kept/0")
HALVES = KEPT[:20], KEPT[20:]  # of which a client that is in the midst of a request has sent the first


class Client:
    """A connection of a client."""

    def __init__(self, port, host=HOST):
        self.port, self.host, self.came = port, host, bytearray()
        self.link = socket.create_connection((host, port), timeout=LIMIT)
        self.link.setsockopt(socket.IPPROTO_TCP, socket.TCP_NODELAY, 1)

    def __enter__(self):
        return self

    def __exit__(self, *_):
        self.link.close()

    def another(self):
        return Client(self.port, self.host)

    def send(self, octets):
        self.link.sendall(octets)

    def drip(self, octets):
        for octet in octets:
            self.link.sendall(bytes([octet]))

    def listen(self, seconds):
        """Waits so long, or until something comes, which is kept. It may be no end."""
        self.link.settimeout(seconds)
        with contextlib.suppress(TimeoutError):
            piece = self.link.recv(1 << 18)
            want("no end", piece)
            self.came += piece
        self.link.settimeout(LIMIT)

    def ends_writing(self):
        self.link.shutdown(socket.SHUT_WR)

    def read_to(self, is_enough):
        """Reads until it is."""
        while not is_enough():
            piece = self.link.recv(1 << 18)
            want(f"a whole reply: {bytes(self.came[:200])}", piece)
            self.came += piece

    def reply(self, method="GET"):
        self.read_to(lambda: b"\r\n\r\n" in self.came)
        end = self.came.index(b"\r\n\r\n") + 4
        head = self.came[: end - 4].decode("latin-1")
        want(f"a status line: {head[:80]!r}", re.match(r"HTTP/1\.1 [2-5]\d\d ", head))
        status, fields = int(head[9:12]), fields_of(head)
        has_body = method != "HEAD" and status not in (204, 304)
        want(f"a length: {head!r}", not has_body or "content-length" in fields)
        whole = end + (int(fields["content-length"]) if has_body else 0)
        self.read_to(lambda: len(self.came) >= whole)
        body = bytes(self.came[end:whole])
        del self.came[:whole]
        return Reply(status, fields, body)

    def ask(self, path, *lines, method="GET", body=b"", version="1.1"):
        self.send(request(path, *lines, method=method, body=body, version=version))
        reply = self.reply(method)
        want(f"no octets behind a reply: {bytes(self.came[:80])}", not self.came)
        return reply

    def is_over(self):
        """Whether nothing comes any more."""
        return not self.came and not self.link.recv(1)

    def is_cut_off(self):
        """The same, be it by a reset."""
        with contextlib.suppress(ConnectionError):
            return self.is_over()
        return True


def all_asking(stack, port, paths, *lines):
    """Clients that have asked, each for a path. One that was refused before may be unable to."""
    clients = [stack.enter_context(Client(port)) for _ in paths]
    for client, path in zip(clients, paths):
        with contextlib.suppress(ConnectionError):
            client.send(request(path, *lines))
    return clients


def answered(port, path, most=LIMIT):
    """The status that a new client gets, or why it gets none in so many seconds, and how long it waits."""
    begun = time.monotonic()
    try:
        with Client(port) as client:
            client.link.settimeout(most)
            told = client.ask(path, "Connection: close").status
    except (OSError, Wrong) as trouble:
        told = type(trouble).__name__
    return told, time.monotonic() - begun


def busy_clients(stack, port, count):
    """Clients that have been answered, and are in the midst of another request, so that none of them gives way."""
    clients = all_asking(stack, port, ["/kept/0"] * count)
    for client in clients:
        want("a reply", client.reply().status == 200)
        client.send(HALVES[0])
    time.sleep(1)
    return clients


def fill(client, paths):
    """Has what the origin says of the paths stored."""
    for path in paths:
        got(client.ask(path), 200, STORED, text(path))


# -- What each kind of client does. Each has targets of its own, by its number, and those that it shares.


def hits(client, number):
    path = f"/kept/hits-{number}"
    got(client.ask(path), 200, STORED, text(path))
    for _ in range(20):
        got(client.ask(path), 200, HIT, text(path))


def misses(client, number):
    for which in range(10):
        path = f"/kept/misses-{number}-{which}"
        got(client.ask(path), 200, STORED, text(path))


def keeps_on(client, number):
    """There is no bound of replies on a connection."""
    path = f"/kept/keeps-on-{number}"
    got(client.ask(path), 200, STORED, text(path))
    replies = [client.ask(path) for _ in range(250)]
    want("a connection that stays", not any(reply.closes() for reply in replies))


def validated_by_its_tag(client, number):
    path = f"/tagged/{number}"
    got(client.ask(path), 200, STORED, text(path))
    time.sleep(OUTLIVES)
    got(client.ask(path), 200, VALIDATED, text(path))
    got(client.ask(path), 200, HIT, text(path))


def validated_by_its_date(client, number):
    path = f"/dated/{number}"
    got(client.ask(path), 200, STORED, text(path))
    time.sleep(OUTLIVES)
    reply = got(client.ask(path), 200, VALIDATED, text(path))
    want("a Last-Modified", reply.fields.get("last-modified") == MODIFIED)


def validated_each_time(client, number):
    path = f"/checked/{number}"
    got(client.ask(path), 200, STORED, text(path))
    got(client.ask(path), 200, VALIDATED, text(path))
    kept = f"/kept/asked-for-anew-{number}"
    got(client.ask(kept), 200, STORED, text(kept))
    got(client.ask(kept, "Cache-Control: no-cache"), 200, "hcache;fwd=request;fwd-status=304", text(kept))


def heads(client, number):
    path = f"/kept/heads-{number}"
    got(client.ask(path, method="HEAD"), 200, PASSED, b"")
    got(client.ask(path), 200, STORED, text(path, 2))
    got(client.ask(path, method="HEAD"), 200, HIT, b"")


def posts(client, number):
    """Each takes away what is stored."""
    path = f"/post/{number}"
    got(client.ask(path), 200, STORED, text(path))
    for which, method in enumerate(("POST", "PUT", "DELETE"), 1):
        got(client.ask(path), 200, HIT, text(path, 2 * which - 1))
        got(client.ask(path, method=method, body=b"x" * number), 204, METHOD, b"")
        got(client.ask(path), 200, STORED, text(path, 2 * which + 1))


def tongues(client, number):
    path, asked = f"/vary/{number}", "Accept-Language: "
    marks = ("de", STORED), ("en", "hcache;fwd=vary-miss;stored"), ("de", HIT), ("en", HIT)
    times = {"de": 1, "en": 2}
    for tongue, mark in marks:
        got(client.ask(path, asked + tongue), 200, mark, text(path, times[tongue], tongue=tongue))


def ranges(client, number):
    path = f"/range/{number}"
    got(client.ask(path, "Range: bytes=0-3"), 206, BYPASS, b"0123")
    got(client.ask(path), 200, STORED, b"0123456789" * 10)
    reply = got(client.ask(path, "Range: bytes=14-17"), 206, BYPASS, b"4567")
    want("what range it is", reply.fields.get("content-range") == "bytes 14-17/100")


def conditions(client, number):
    path = f"/kept/conditions-{number}"
    got(client.ask(path, 'If-None-Match: "one"'), 304, PASSED, b"")
    got(client.ask(path), 200, STORED, text(path, 2))
    reply = got(client.ask(path, 'If-None-Match: "two", "one"'), 304, HIT, b"")
    want("its tag", reply.fields.get("etag") == '"one"')
    got(client.ask(path, 'If-None-Match: "two"'), 200, HIT, text(path, 2))
    dated = f"/lasting/{number}"
    got(client.ask(dated), 200, STORED, text(dated))
    got(client.ask(dated, f"If-Modified-Since: {MODIFIED}"), 304, HIT, b"")


def only_if_cached(client, number):
    path, only = f"/kept/only-{number}", "Cache-Control: only-if-cached"
    got(client.ask(path, only), 504, OWN)
    got(client.ask(path), 200, STORED, text(path))
    got(client.ask(path, only), 200, HIT, text(path))


def unstored(client, number):
    for kind, which in itertools.product(("unstored", "private"), (1, 2)):
        path = f"/{kind}/{number}"
        got(client.ask(path), 200, PASSED, text(path, which))
    path = f"/kept/unstored-{number}"
    got(client.ask(path, "Cache-Control: no-store"), 200, BYPASS, text(path))
    got(client.ask(path), 200, STORED, text(path, 2))


def authorized(client, number):
    secret = f"Authorization: Basic {number}"
    kept, public = f"/kept/authorized-{number}", f"/public/{number}"
    got(client.ask(kept, secret), 200, PASSED, text(kept))
    got(client.ask(kept), 200, STORED, text(kept, 2))
    got(client.ask(public, secret), 200, STORED, text(public))
    got(client.ask(public), 200, HIT, text(public))


def uploads(client, number):
    body = bytes(range(256)) * 400
    pieces = [body[at : at + 10_000 + number] for at in range(0, len(body), 10_000 + number)]
    told = f"{len(body)} {hashlib.sha256(body).hexdigest()}".encode()
    client.send(request(f"/upload/{number}", "Transfer-Encoding: chunked", method="POST"))
    for piece in pieces:
        client.send(b"%x;a=b\r\n%s\r\n" % (len(piece), piece))
        time.sleep(0.02)
    client.send(b"0\r\ntrailer: t\r\n\r\n")
    got(client.reply(), 200, METHOD, told)
    got(client.ask(f"/upload/{number}", method="PUT", body=body), 200, METHOD, told)


def other_statuses(client, number):
    missing, moved = f"/missing/{number}", f"/moved/{number}"
    got(client.ask(missing), 404, STORED, text(missing))
    got(client.ask(missing), 404, HIT, text(missing))
    got(client.ask(moved), 301, STORED, b"")
    want("where it is", client.ask(moved).fields.get("location") == "/kept/1")


def large_path(name):
    return f"/large/{name}/{LARGE}"


def large_bodies(client, number):
    path, body = large_path(number), pattern(LARGE)
    got(client.ask(path), 200, STORED, body)
    got(client.ask(path), 200, HIT, body)


def reads_slowly(client, number):
    path, body = large_path(f"slowly-{number}"), pattern(LARGE)
    got(client.ask(path), 200, STORED, body)
    client.send(request(path) * 2)
    for _ in range(40):
        client.came += client.link.recv(LARGE // 100)
        time.sleep(0.05)
    got(client.reply(), 200, HIT, body)
    got(client.reply(), 200, HIT, body)


def got_one_of_all(reply, path):
    """What one of many gets that ask for the same."""
    got(reply, 200, "*", text(path))
    is_right = reply.mark in (STORED, COLLAPSED) or fnmatch.fnmatchcase(reply.mark, HIT)
    want(f"a mark: {reply.mark}", is_right)


def collapses(client, number):
    """All ask for the same, which comes late."""
    got_one_of_all(client.ask("/slow/all"), "/slow/all")


def waits_in_vain(client, number):
    """What is private answers nobody else."""
    reply = got(client.ask("/slow-private/all"), 200, PASSED)
    want(f"a body: {reply.body}", re.fullmatch(rb"GET /slow-private/all \d+ \n", reply.body))


def shares(client, number):
    for which in range(40):
        path = f"/kept/shared-{which % 5}"
        got_one_of_all(client.ask(path), path)


def closes(client, number):
    path = f"/kept/closes-{number}"
    reply = got(client.ask(path, "Connection: close"), 200, STORED, text(path))
    want("that it closes", reply.closes() and client.is_over())


def old(client, number):
    path = f"/kept/old-{number}"
    reply = got(client.ask(path, version="1.0"), 200, STORED, text(path))
    want("that it closes", reply.closes() and client.is_over())
    with client.another() as next_one:
        got(next_one.ask(path, version="1.0"), 200, HIT, text(path))


REFUSED = (
    (b"\x00\x01\x02 garbage\r\n\r\n", 400),
    (b"GET /a b HTTP/1.1\r\nHost: h\r\n\r\n", 400),
    (b"GET /a HTTP/1.1\r\n\r\n", 400),
    (b"GET /a HTTP/1.1\r\nHost: h\r\nHost: h\r\n\r\n", 400),
    (b"GET /a HTTP/1.1\r\nHost : h\r\n\r\n", 400),
    (b"POST /a HTTP/1.1\r\nHost: h\r\nContent-Length: 1\r\nContent-Length: 2\r\n\r\n", 400),
    (b"POST /a HTTP/1.1\r\nHost: h\r\nContent-Length: 1\r\nTransfer-Encoding: chunked\r\n\r\n", 400),
    (b"POST /a HTTP/1.1\r\nHost: h\r\nTransfer-Encoding: chunked\r\n\r\nx\r\n", 400),
    (b"POST /a HTTP/1.1\r\nHost: h\r\nContent-Length: 16777217\r\n\r\n", 413),
    (b"GET /a HTTP/1.1\r\nHost: h\r\n" + b"a: b\r\n" * 100 + b"\r\n", 431),
    (b"POST /a HTTP/1.1\r\nHost: h\r\nTransfer-Encoding: gzip\r\n\r\n", 501),
)


def sends_garbage(client, number):
    for octets, status in REFUSED:
        with client.another() as it:
            it.send(octets)
            got(it.reply(), status, OWN, b"")
            want("that it closes", it.is_over())


def garbage_behind_a_request(client, number):
    path = f"/kept/garbage-{number}"
    client.send(request(path) + b"\x00\r\n\r\n")
    got(client.reply(), 200, STORED, text(path))
    got(client.reply(), 400, OWN, b"")
    want("that it closes", client.is_over())


def expects(client, number):
    client.send(request("/upload/expects", "Expect: 100-continue", "Content-Length: 5", method="PUT"))
    reply = got(client.reply(), 417, OWN, b"")
    want("that it closes", reply.closes() and client.is_over())


def octet_by_octet(client, number):
    path = f"/kept/octets-{number}"
    client.drip(request(path) * 2)
    got(client.reply(), 200, STORED, text(path))
    got(client.reply(), 200, HIT, text(path))


def asks_ahead(client, number):
    paths = [f"/kept/ahead-{number}-{which % 7}" for which in range(21)]
    client.send(b"".join(map(request, paths)))
    for which, path in enumerate(paths):
        got(client.reply(), 200, HIT if which >= 7 else STORED, text(path))


def stops_halfway(client, number):
    """And goes on later."""
    path = f"/kept/halfway-{number}"
    octets = request(path)
    client.send(octets[:20])
    time.sleep(2)
    client.send(octets[20:])
    got(client.reply(), 200, STORED, text(path))


def goes_away(client, number):
    """By a reset, in a request, before the reply, and in it."""
    for octets in (b"GET /kept/goes", request(f"/slow/goes-{number}"), request(large_path(f"goes-{number % 2}"))):
        with client.another() as it:
            it.send(octets)
            time.sleep(0.1)
            reset(it.link)
    path = f"/kept/stays-{number}"
    got(client.ask(path), 200, STORED, text(path))


def framings(client, number):
    for kind in ("chunked", "until-its-end", "interim"):
        path = f"/{kind}/{number}"
        got(client.ask(path), 200, STORED, text(path))
        got(client.ask(path), 200, HIT, text(path))


def failing_origins(client, number):
    for kind in ("cut", "garbage", "resets", "silent"):
        reply = got(client.ask(f"/{kind}/{number}"), 502, OWN, b"")
        want("that it stays open", not reply.closes())
    path = f"/kept/failing-{number}"
    got(client.ask(path), 200, STORED, text(path))


def absolute_targets(client, number):
    path = f"/kept/absolute-{number}"
    got(client.ask(f"http://h{path}"), 200, STORED, text(path))
    got(client.ask(path), 200, HIT, text(path))


KINDS = (
    hits,
    misses,
    keeps_on,
    validated_by_its_tag,
    validated_by_its_date,
    validated_each_time,
    heads,
    posts,
    tongues,
    ranges,
    conditions,
    only_if_cached,
    unstored,
    authorized,
    uploads,
    other_statuses,
    large_bodies,
    reads_slowly,
    collapses,
    waits_in_vain,
    shares,
    closes,
    old,
    sends_garbage,
    garbage_behind_a_request,
    expects,
    octet_by_octet,
    asks_ahead,
    stops_halfway,
    goes_away,
    framings,
    failing_origins,
    absolute_targets,
)


def at_once(port, count, kinds=KINDS):
    """So many clients, which all are connected before one asks. Answers what was wrong."""
    barrier = threading.Barrier(count)

    def tried(number):
        kind = kinds[number % len(kinds)]
        try:
            with Client(port) as client:
                barrier.wait(LIMIT)
                kind(client, number)
        except (Wrong, OSError, threading.BrokenBarrierError) as trouble:
            return f"{kind.__name__}: {type(trouble).__name__} {trouble}"

    with concurrent.futures.ThreadPoolExecutor(count) as pool:
        return [trouble for trouble in pool.map(tried, range(count)) if trouble]


# -- Clients that are cut off


class Asker:
    """A client that asks until it is cut off, and knows how many whole replies it got, and for which paths."""

    def __init__(self, port, number):
        self.client, self.number, self.replies = Client(port), number, 0
        self.seen, self.is_cut = collections.Counter(), False

    def path(self):
        which = self.replies
        if which % 10 == 9:
            return f"/slow/{self.number}-{which}"
        return f"/kept/{self.number}-{which}" if which % 3 == 0 else f"/kept/{which % 5}"

    def ask_on(self):
        """Answers how many whole replies it got. `is_cut` tells whether it was cut off inside of one."""
        with self.client as client:
            while True:
                path = self.path()
                try:
                    client.ask(path)
                except (OSError, Wrong):
                    self.is_cut = bool(client.came)
                    return self.replies
                self.seen[path] += 1
                self.replies += 1


class Trusting(Asker):
    """A client that asks on its connection until a reply tells it that this closes, and never tries again. A request
    behind which no whole reply of 200 comes is lost."""

    def __init__(self, port, number):
        super().__init__(port, number)
        self.lost = self.told_at = self.open_at = None  # why, and the moments of its last reply and of the one before

    def path(self):
        """Of a hit, a miss, and what comes late, by turns."""
        which = self.replies
        own = f"{self.number}-{which}"
        return (f"/kept/{which % 5}", f"/kept/{own}", f"/late/{own}/300")[which % 3]

    def ask_on(self):
        with self.client as client:
            while not (self.told_at or self.lost):
                path = self.path()
                try:
                    self.hear(path, client.ask(path))
                except (OSError, Wrong) as trouble:
                    self.lost = f"{path}: {type(trouble).__name__} {trouble}"
            return self.replies

    def hear(self, path, reply):
        want(f"200: {reply.status}", reply.status == 200)
        self.seen[path] += 1
        self.replies += 1
        if not reply.closes():
            self.open_at = time.monotonic()
            return
        self.told_at = time.monotonic()
        want("that it closes", self.client.is_cut_off())


# -- Batches of requests, of which every tenth is for a target that nobody asked for


def targets(batch):
    """The paths of a batch, each with the length of its body last."""
    for which in range(BATCH):
        if which % 10:
            yield f"/sized/popular-{(batch + which) % 100}/200"
        else:
            yield f"/sized/new-{batch}-{which}/{(batch * 7919 + which * 97) % 4000}"


def ask_batch(client, batch):
    paths = list(targets(batch))
    client.send(b"".join(map(request, paths)))
    for path in paths:
        reply = client.reply()
        is_right = reply.status == 200 and len(reply.body) == last_number(path)
        want(f"{path}: {reply.status} {reply.mark}, {len(reply.body)} octets", is_right)


def ask_batches(port, batches):
    """On one connection."""
    with Client(port) as client:
        for batch in batches:
            ask_batch(client, batch)


def main(words):
    """Asks, as a process of its own: the port, the first batch and the one behind the last, which one of how many this
    process is."""
    port, span, place = words
    first, last = map(int, span.split(":"))
    lane, lanes = map(int, place.split(":"))
    mine = range(first + lane, last, lanes)
    for at in range(0, len(mine), BATCHES):
        ask_batches(int(port), mine[at : at + BATCHES])


if __name__ == "__main__":
    main(sys.argv[1:])
