"""The pages of an origin that keeps to the standards: validators, conditions, ranges, and each way to frame a body."""

import collections
import contextlib
import email.utils
import gzip
import re
import socket
import threading
import time

from small_origin import fields_of

NOTHING = 0  # in place of a status: the connection ends without an answer
LIMIT = 60  # seconds that a link may be silent
KEPT = ("cache-control", "expires", "vary", "date")  # what a 304 says again (RFC 9110 section 15.4.5)
SAFE = ("GET", "HEAD")
RANGE = re.compile(r"bytes=(?:(\d+)-(\d*)|-(\d+))")
OFFSET = re.compile(r"@(-?\d+)")

# What is asked: the fields have names in lower case, and `round` counts from 1.
Asked = collections.namedtuple("Asked", "method path fields round")


def date_of(seconds):
    """The moment so many seconds from now."""
    return email.utils.formatdate(time.time() + seconds, usegmt=True)


def name_of(line):
    return line.partition(":")[0].lower()


def members(text):
    return [member.strip() for member in text.split(",")]


def is_about(condition, tag):
    """Whether If-None-Match holds, weakly compared."""
    return condition == "*" or tag.removeprefix("W/") in [it.removeprefix("W/") for it in members(condition)]


class Page:
    """What is answered for a path. Lines may have `@N` for the moment N seconds from now.

    `tag` is its ETag, and `is_dated` gives it a Last-Modified; with `changes` both and the body are others in each
    round. `again` are lines that a 304 has in place of those of their names. `unsafe` is the status for methods that
    aren't safe, and `located` what their Location names. From the second round on there is a plain answer of the
    status `later`. `by` are fields of which the body tells, and `pause` seconds before an answer."""

    def __init__(self, *lines, status=200, tag=None, is_dated=False, changes=False, again=(), unsafe=405, located="",
                 later=None, by=(), has_ranges=False, is_encoded=False, framing="sized", size=None, has_date=True,
                 pause=0.0):
        self.lines, self.status, self.tag, self.is_dated, self.changes = lines, status, tag, is_dated, changes
        self.again, self.unsafe, self.located, self.later, self.by = again, unsafe, located, later, by
        self.has_ranges, self.is_encoded, self.framing, self.size = has_ranges, is_encoded, framing, size
        self.has_date, self.pause = has_date, pause

    def answer(self, asked):
        """The octets of the answer; none where there is none."""
        is_later = self.later is not None and asked.round > 1
        if NOTHING == (self.later if is_later else self.status):
            return b""
        if is_later:
            return self.whole(asked, self.later, self.dated(), f"{self.later} from now on\n".encode())
        if asked.method not in SAFE:
            return self.changed_by(asked)
        if self.status != 200:
            return self.whole(asked, self.status, self.fields(asked), self.body(asked))
        return self.conditional(asked)

    def changed_by(self, asked):
        """The answer to a method that isn't safe."""
        lines = [f"Location: {asked.path}/{self.located}"] if self.unsafe in (201, 303) else []
        body = b"" if self.unsafe == 204 else f"{asked.method} is done\n".encode()
        return self.whole(asked, self.unsafe, [*self.dated(), *lines], body)

    def conditional(self, asked):
        """The answer to GET or HEAD, by the conditions in their order (RFC 9110 section 13.2.2)."""
        tag, modified, said = self.tag_of(asked), self.modified(asked), asked.fields
        lines, body = self.fields(asked), self.body(asked)
        if "if-match" in said and said["if-match"] != "*" and tag not in members(said["if-match"]):
            return self.whole(asked, 412, self.dated(), b"it has another tag\n")
        if "if-none-match" in said:
            is_same = tag is not None and is_about(said["if-none-match"], tag)
        else:
            is_same = self.is_dated and said.get("if-modified-since") == modified
        if is_same:
            return self.whole(asked, 304, self.unmodified(lines), b"")
        if self.has_ranges and asked.method == "GET" and said.get("if-range", tag or modified) in (tag, modified):
            return self.part(asked, lines, body)
        return self.whole(asked, 200, lines, body)

    def part(self, asked, lines, body):
        """The range that is asked for; all where none is, or several are."""
        found = RANGE.fullmatch(asked.fields.get("range", ""))
        if not found:
            return self.whole(asked, 200, lines, body)
        first, last, final = (it and int(it) for it in found.groups())
        first, last = (len(body) - final, None) if final else (first, last)
        if first >= len(body):
            lines = [*self.dated(), f"Content-Range: bytes */{len(body)}"]
            return self.whole(asked, 416, lines, b"")
        piece = body[first : None if last is None else last + 1]
        told = f"Content-Range: bytes {first}-{first + len(piece) - 1}/{len(body)}"
        return self.whole(asked, 206, [*lines, told], piece)

    # What a page says of itself.

    def tag_of(self, asked):
        if self.tag is None:
            return None
        return f'{self.tag[:-1]}-{asked.round}"' if self.changes else self.tag

    def modified(self, asked):
        day = asked.round if self.changes else 1
        return email.utils.formatdate(1_767_225_600 + 86_400 * (day - 1), usegmt=True)

    def dated(self):
        has_one = any(name_of(line) == "date" for line in self.lines)
        return [] if has_one or not self.has_date else [f"Date: {date_of(0)}"]

    def fields(self, asked):
        """The lines of a whole answer."""
        lines = [OFFSET.sub(lambda found: date_of(int(found[1])), line) for line in (*self.dated(), *self.lines)]
        lines += [f"ETag: {self.tag_of(asked)}"] * (self.tag is not None)
        lines += [f"Last-Modified: {self.modified(asked)}"] * self.is_dated
        lines += ["Accept-Ranges: bytes"] * self.has_ranges
        if 300 < self.status < 304:
            lines.append("Location: /hit/elsewhere")
        return lines + ["Content-Encoding: gzip"] * self.is_zipped(asked)

    def unmodified(self, lines):
        replaced = {name_of(line) for line in self.again}
        names = {*KEPT, "etag"} - replaced
        return [line for line in lines if name_of(line) in names] + list(self.again)

    def is_zipped(self, asked):
        return self.is_encoded and "gzip" in asked.fields.get("accept-encoding", "")

    def body(self, asked):
        told = [asked.path, *[asked.fields.get(name, "-") for name in self.by]]
        text = f"{' '.join(told)}{f' in round {asked.round}' if self.changes else ''}\n".encode()
        size = 4 * len(text) if self.size is None else self.size
        octets = (text * (size // len(text) + 1))[:size]
        return gzip.compress(octets, mtime=0) if self.is_zipped(asked) else octets

    # How it is framed.

    def whole(self, asked, status, lines, body):
        """The octets of an answer, by how it is framed."""
        framing = self.framing if status == self.status else "sized"
        has_body = asked.method != "HEAD" and status not in (204, 304)
        version = "1.0" if framing == "old" else "1.1"
        if framing in ("chunked", "trailers"):
            middle = len(body) // 3
            pieces = [b"%x\r\n%s\r\n" % (len(it), it) for it in (body[:middle], body[middle:])]
            trailer = b"X-Sum: 1\r\n" if framing == "trailers" else b""
            body = b"".join([*pieces, b"0\r\n", trailer, b"\r\n"])
            lines = [*lines, "Transfer-Encoding: chunked", *["Trailer: X-Sum"] * bool(trailer)]
        elif framing == "close":
            lines = [*lines, "Connection: close"]
        elif status not in (204, 304):
            lines = [*lines, f"Content-Length: {len(body)}"]
        head = "".join(f"{line}\r\n" for line in [f"HTTP/{version} {status} ", *lines, ""]).encode()
        interim = b"HTTP/1.1 103 \r\nLink: </style>\r\n\r\n" if framing == "interim" else b""
        return interim + head + (body[: len(body) // 2] if framing == "cut" else body) * has_body

    def closes(self):
        return self.framing in ("close", "old", "cut")


class Pages:
    """An origin of pages, each connection in a thread of its own. `find` gives the page of a path, if there is one;
    `round` is what they are to count as, and `was_asked` whether anything was asked."""

    def __init__(self, find, where=("127.0.0.1", 0)):
        self.find, self.round, self.was_asked = find, 1, False
        self.listener = socket.create_server(where, backlog=128)
        self.port = self.listener.getsockname()[1]
        threading.Thread(target=self.accept, daemon=True).start()

    def accept(self):
        with contextlib.suppress(OSError):
            while True:
                link, _ = self.listener.accept()
                link.setsockopt(socket.IPPROTO_TCP, socket.TCP_NODELAY, 1)
                threading.Thread(target=self.serve, args=(link,), daemon=True).start()

    def close(self):
        self.listener.close()

    def serve(self, link):
        with link, link.makefile("rb") as came, contextlib.suppress(OSError, ValueError):
            link.settimeout(LIMIT)
            while asked := self.read(came):
                self.was_asked = True
                page = self.find(asked.path) or Page(status=404)
                time.sleep(page.pause)
                octets = page.answer(asked)
                link.sendall(octets)
                if not octets or page.closes():
                    return

    def read(self, came):
        """What is asked next; none where nothing is."""
        lines = []
        while (line := came.readline(65_536)) not in (b"\r\n", b""):
            lines.append(line.decode("latin-1").rstrip("\r\n"))
        if not lines:
            return None
        method, path, _ = lines[0].split(" ")
        fields = fields_of("\r\n".join(lines))
        if fields.get("transfer-encoding", "").lower() == "chunked":
            skip_chunks(came)
        else:
            came.read(int(fields.get("content-length", "0")))
        return Asked(method, path, fields, self.round)


def skip_chunks(came):
    """Reads a chunked body to its end."""
    while size := int(came.readline(4096).split(b";")[0], 16):
        came.read(size + 2)
    while came.readline(4096) not in (b"\r\n", b""):
        pass
