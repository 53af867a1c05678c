"""A small origin for tools that try a cache: what it answers is told by the first part of a path, and it counts how
often each path was asked."""

import collections
import contextlib
import email.utils
import hashlib
import re
import socket
import struct
import threading
import time

HOST = "127.0.0.1"
MODIFIED = "Thu, 01 Jan 2026 00:00:00 GMT"
LIMIT = 60  # seconds that a link may be silent
PAUSE = 1  # seconds that a slow answer takes

# What is asked: how often the path was asked before, too.
Asked = collections.namedtuple("Asked", "method path fields body before")


def read_head(link):
    """The head of a message and the octets behind it; none where none comes."""
    came = b""
    while b"\r\n\r\n" not in came:
        piece = link.recv(65_536)
        if not piece:
            return None
        came += piece
    head, _, rest = came.partition(b"\r\n\r\n")
    return head.decode("latin-1"), rest


def fields_of(head):
    """The fields of a head, by their names in lower case; of fields of one name the last."""
    pairs = [line.partition(":") for line in head.split("\r\n")[1:]]
    return {name.lower(): value.strip() for name, _, value in pairs}


def with_head(status, fields, body):
    lines = [f"HTTP/1.1 {status} ", f"Date: {email.utils.formatdate(usegmt=True)}"]
    lines += [f"{name}: {value}" for name, value in fields.items()]
    return "".join(f"{line}\r\n" for line in [*lines, ""]).encode("latin-1") + body


def response(asked, body, status=200, **fields):
    """A response whose fields are named by words; one to HEAD, and one of 204 or 304, has no body."""
    named = {name.replace("_", "-"): value for name, value in fields.items()}
    if status not in (204, 304):
        named["content-length"] = len(body)
    return with_head(status, named, b"" if asked.method == "HEAD" or status in (204, 304) else body)


def text_of(asked):
    """A body that tells what was asked, and which time it was."""
    tongue = asked.fields.get("accept-language", "")
    return f"{asked.method} {asked.path} {asked.before + 1} {tongue}\n".encode()


# -- What is answered, by the first part of the path


def lives(control, **fields):
    return lambda asked: response(asked, text_of(asked), cache_control=control, **fields)


def tagged(control, again):
    """Validated by its tag, with other directives then."""

    def answered(asked):
        if asked.fields.get("if-none-match") == '"one"':
            return response(asked, b"", 304, cache_control=again, etag='"one"')
        return response(asked, text_of(asked), cache_control=control, etag='"one"')

    return answered


def tagged_with_a_cookie(asked):
    """Validated by its tag, with a cookie then."""
    if asked.fields.get("if-none-match") == '"one"':
        return response(asked, b"", 304, cache_control="max-age=2", etag='"one"', set_cookie="a=1")
    return response(asked, text_of(asked), cache_control="max-age=2", etag='"one"')


def dated(asked):
    """Validated by its date."""
    status = 304 if asked.fields.get("if-modified-since") == MODIFIED else 200
    return response(asked, text_of(asked), status, cache_control="max-age=2", last_modified=MODIFIED)


def posted(asked):
    if asked.method != "GET":
        return response(asked, b"", 204)
    return response(asked, text_of(asked), cache_control="max-age=3600")


def ranged(asked):
    found = re.fullmatch(r"bytes=(\d+)-(\d+)", asked.fields.get("range", ""))
    body, control = b"0123456789" * 10, "max-age=3600"
    if not found:
        return response(asked, body, cache_control=control)
    first, last = int(found[1]), int(found[2])
    told = f"bytes {first}-{last}/{len(body)}"
    return response(asked, body[first : last + 1], 206, cache_control=control, content_range=told)


def uploaded(asked):
    """Tells how many octets came, and their digest."""
    return response(asked, f"{len(asked.body)} {hashlib.sha256(asked.body).hexdigest()}".encode())


def last_number(path):
    return int(path.rsplit("/", 1)[1])


def pattern(length):
    """So many octets, of all values."""
    return (bytes(range(256)) * (length // 256 + 1))[:length]


def sized(asked):
    """A body of as many octets as the path says last."""
    text, length = text_of(asked), last_number(asked.path)
    return response(asked, (text * (length // len(text) + 1))[:length], cache_control="max-age=3600")


def chunked(asked):
    text = text_of(asked)
    pieces = b"".join(b"%x\r\n%s\r\n" % (len(piece), piece) for piece in (text[:5], text[5:]))
    fields = {"cache-control": "max-age=3600", "transfer-encoding": "chunked"}
    return with_head(200, fields, pieces + b"0\r\n\r\n")


def until_its_end(asked):
    return with_head(200, {"cache-control": "max-age=3600"}, text_of(asked))


def failing(asked):
    """The first time well, and then no more."""
    if asked.before:
        return response(asked, b"trouble", 503)
    return response(asked, text_of(asked), cache_control="max-age=1, stale-if-error=600")


def behind_interim(asked):
    interim = b"HTTP/1.1 103 \r\nlink: </style>\r\n\r\n"
    return interim * 3 + response(asked, text_of(asked), cache_control="max-age=3600")


ANSWERS = {
    "kept": tagged("max-age=3600", "max-age=3600"),
    "tagged": tagged("max-age=2", "max-age=3600"),
    "checked": tagged("max-age=3600, no-cache", "max-age=3600, no-cache"),
    "behind": tagged("max-age=1, stale-while-revalidate=60", "max-age=1, stale-while-revalidate=60"),
    "cookied": lives("max-age=3600", set_cookie="a=1"),
    "cookied-again": tagged_with_a_cookie,
    "dated": dated,
    "lasting": lives("max-age=3600", last_modified=MODIFIED),
    "vary": lives("max-age=3600", vary="Accept-Language"),
    "post": posted,
    "range": ranged,
    "unstored": lives("no-store"),
    "private": lives("private, max-age=3600"),
    "public": lives("public, max-age=3600"),
    "missing": lambda asked: response(asked, text_of(asked), 404, cache_control="max-age=3600"),
    "moved": lambda asked: response(asked, b"", 301, location="/kept/1", cache_control="max-age=3600"),
    "large": lambda asked: response(asked, pattern(last_number(asked.path)), cache_control="max-age=3600"),
    "slow": lives("max-age=3600"),
    "slow-private": lives("private, max-age=3600"),
    "late": lives("max-age=3600"),
    "late-again": lives("max-age=1, stale-while-revalidate=60"),
    "hung": lives("max-age=1, stale-while-revalidate=600"),
    "hung-first": lives("max-age=3600"),
    "failing": failing,
    "upload": uploaded,
    "sized": sized,
    "chunked": chunked,
    "until-its-end": until_its_end,
    "interim": behind_interim,
    "cut": lambda _: b"HTTP/1.1 200 \r\ncontent-length: 10\r\n\r\nhell",
    "garbage": lambda _: bytes(range(255, -1, -1)),
    "resets": lambda _: b"HTTP/1.1 200 \r\ncontent-length: 10\r\n\r\nhell",
    "silent": lambda _: b"",
}


def reset(link):
    """Closes a socket so that the other side gets a reset."""
    link.setsockopt(socket.SOL_SOCKET, socket.SO_LINGER, struct.pack("ii", 1, 0))
    link.close()


class Origin:
    """Answers one request on each connection, in a thread of its own. It can go down and come up again at its port."""

    def __init__(self, is_up=True):
        with socket.create_server((HOST, 0)) as it:
            self.port = it.getsockname()[1]
        self.address = f"{HOST}:{self.port}"
        self.counts, self.lock, self.listener = collections.Counter(), threading.Lock(), None
        self.released = threading.Event()  # until then what hangs isn't answered
        if is_up:
            self.come_up()

    def come_up(self):
        self.listener = socket.create_server((HOST, self.port), backlog=4096)
        threading.Thread(target=self.accept, args=(self.listener,), daemon=True).start()

    def go_down(self):
        # What waits in a call isn't woken by a close.
        self.listener.shutdown(socket.SHUT_RDWR)
        self.listener.close()

    def release(self):
        """Answers what hangs."""
        self.released.set()

    def accept(self, listener):
        with contextlib.suppress(OSError):
            while True:
                link, _ = listener.accept()
                threading.Thread(target=self.serve, args=(link,), daemon=True).start()

    def asked(self, link):
        """What comes on the connection; none where nothing does."""
        read = read_head(link)
        if read is None:
            return None
        head, body = read
        method, path, _ = head.split("\r\n", 1)[0].split(" ")
        fields = fields_of(head)
        parts = [body]
        missing = int(fields.get("content-length", 0)) - len(body)
        while missing > 0:
            parts.append(link.recv(1 << 20))
            missing -= len(parts[-1])
            if not parts[-1]:
                return None
        with self.lock:
            self.counts[path] += 1
            before = self.counts[path] - 1
        return Asked(method, path, fields, b"".join(parts), before)

    def serve(self, link):
        with link, contextlib.suppress(OSError):
            link.settimeout(LIMIT)
            asked = self.asked(link)
            if asked is not None:
                self.answer(link, asked)

    def answer(self, link, asked):
        kind = asked.path.split("/")[1]
        if kind.startswith("slow"):
            time.sleep(PAUSE)
        if kind == "late" or (kind == "late-again" and asked.before):
            time.sleep(last_number(asked.path) / 1000)
        if (kind == "hung" and asked.before) or kind == "hung-first":
            self.released.wait()
        link.sendall(ANSWERS[kind](asked))
        if kind == "resets":
            time.sleep(PAUSE / 20)
            reset(link)


def main():
    """An origin in a process of its own, which answers one request after another; it prints its port."""
    origin = Origin(is_up=False)
    with socket.create_server((HOST, origin.port), backlog=4096) as listener:
        print(origin.port, flush=True)
        while True:
            link, _ = listener.accept()
            origin.serve(link)


if __name__ == "__main__":
    main()
