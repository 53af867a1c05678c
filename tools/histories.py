"""Small recordings of a cache, by chance: what came to be stored, and a last reply that is right, or wrong in one of
many ways. tools/check_facts has that explained."""

import walks
from walks import date_text, values

HOST, OTHER = "h", "i"
PATHS = ("/a", "/b")
BODIES = (b"hello", b"world", b"hello, all", b"")
CONTROLS = (
    "max-age=60", "max-age=10", "max-age=600", "max-age=0", "max-age=60,public", "s-maxage=30", "no-cache",
    "s-maxage=30, max-age=5", "no-cache, max-age=60", 'no-cache="x-a", max-age=60', "private, max-age=60",
    'private="x-a", max-age=60', "no-store", "must-revalidate, max-age=10", "proxy-revalidate, max-age=10", "public",
    "public, max-age=5", "max-age=10, stale-while-revalidate=20", "max-age=10, stale-if-error=60", "max-age=soon",
    "stale-while-revalidate=5", "must-understand, no-store, max-age=60", "must-revalidate",
    'max-age=10, x-y="a, no-store"')
LANGUAGES = ("en, de", "en, DE", "de,en", "en")
KINDS = ("1,2", "1, 2", "a")
SETTINGS = {
    "slack": (1, 2, 5), "age_slack": (1, 3, 10), "default_ttl": (0, 5, 20, 100), "grace": (0, 5, 20),
    "allow": (("added-fields",), ("joined-lines",), ("ranges",), ("added-fields", "joined-lines", "ranges")),
    "normalized": (("accept-language",), ("x-kind",)), "ignore": (("x-b",), ("date", "x-a")),
    "infer_marks": (True,), "errors_only": (True,)}
MOST_TRIED = 4000


class Maker:
    """Writes a recording, record by record."""

    def __init__(self, chance):
        self.chance, self.format = chance, chance.choice((1, 2, 2))
        self.moment, self.numbers = 1_790_000_000 + chance.randrange(100_000), {"q": 0, "f": 0}
        self.octets = f"HCT{self.format}\n".encode()

    def write(self, kind, number, message=b"", cause=None):
        words = [kind, str(number), str(self.moment), str(len(message))]
        if kind == "f" and self.format == 2:
            words.append(str(cause or "-"))
        self.octets += " ".join(words).encode() + b"\n" + message + b"\n"

    def wait(self, *seconds):
        self.moment += self.chance.choice(seconds)

    def ask(self, kind, method, path, fields=(), host=HOST, cause=None):
        self.numbers[kind] += 1
        self.write(kind, self.numbers[kind], message(f"{method} {path} HTTP/1.1", [("host", host), *fields]), cause)
        return self.numbers[kind]

    def answer(self, kind, number, status, fields, body=b"", method="GET"):
        is_bodyless = method == "HEAD" or status in (204, 304)
        length = [] if status in (204, 304) else [("content-length", str(len(body)))]
        self.write(kind, number, message(f"HTTP/1.1 {status} ", [*fields, *length], b"" if is_bodyless else body))

    def reply(self, number, settings):
        """What is known of a reply that would come now to that exchange."""
        octets = self.octets
        self.answer("a", number, 200, [])
        recording, self.octets = walks.Recording(self.octets), octets
        return walks.Reply(recording, recording.records[-1], settings)


def message(first, fields, body=b""):
    lines = [first, *(f"{name}: {value}" for name, value in fields), ""]
    return "".join(f"{line}\r\n" for line in lines).encode("latin-1") + body


def some(chance, *choices):
    """Pairs of a name and a value, each with its share."""
    return [(name, value) for share, name, value in choices if chance.random() < share]


def tag(chance):
    return chance.choice(('"1"', '"1"', '"2"', 'W/"1"'))


def response(maker):
    """The status, the fields and the body of a response."""
    chance, now = maker.chance, maker.moment
    fields = some(
        chance, (0.9, "date", date_text(now - chance.choice((0, 0, 0, 7, 40, -5)))),
        (0.15, "age", str(chance.choice((0, 3, 15, 700)))), (0.85, "cache-control", chance.choice(CONTROLS)),
        (0.15, "expires", chance.choice(("0", date_text(now + 30), date_text(now - 30)))), (0.6, "etag", tag(chance)),
        (0.3, "last-modified", date_text(now - 100_000)), (0.05, "connection", "x-b"), (0.5, "x-a", "1"),
        (0.25, "vary", chance.choice(("accept-language", "x-kind", "Accept-Language, X-Kind", "*"))),
        (0.3, "x-b", "1"), (0.2, "x-b", "2"), (0.2, "content-type", "text/plain"))
    return chance.choice((200,) * 12 + (404, 301, 302, 203, 206, 410)), fields, chance.choice(BODIES)


def not_modified(maker):
    chance = maker.chance
    control = chance.choice(("max-age=30", "max-age=5", "no-store", "private", "no-cache", "max-age=60"))
    return 304, some(chance, (0.8, "date", date_text(maker.moment)), (0.6, "etag", tag(chance)), (0.15, "age", "4"),
                     (0.2, "last-modified", date_text(maker.moment - 100_000)), (0.5, "cache-control", control),
                     (0.3, "x-a", "2")), b""


def asked(chance):
    """The fields of a request that a client may send."""
    control = chance.choice(("max-stale", "max-stale=10", "stale-if-error=30", "no-cache", "no-store"))
    since = chance.choice((date_text(1_790_200_000), date_text(1_780_000_000), "soon"))
    return some(chance, (0.4, "accept-language", chance.choice(LANGUAGES)), (0.4, "x-kind", chance.choice(KINDS)),
                (0.15, "cache-control", control), (0.1, "range", chance.choice(("bytes=0-1", "bytes=90-99"))),
                (0.05, "if-match", '"2"'), (0.05, "authorization", "Basic eA=="), (0.08, "if-modified-since", since),
                (0.12, "if-none-match", chance.choice(('"1"', '"2"', "*", '"3", W/"1"'))))


def conditions(chance):
    return some(chance, (0.7, "if-none-match", tag(chance)), (0.2, "if-modified-since", date_text(1_789_900_000)))


def forward(maker, path, method="GET", cause=None, fields=(), host=HOST):
    """A forward and what it gets: a response, a 304, an error, or nothing."""
    chance = maker.chance
    is_conditional = method in ("GET", "HEAD") and chance.random() < 0.45
    number = maker.ask("f", method, path, [*fields, *(conditions(chance) if is_conditional else ())], host, cause)
    maker.wait(0, 0, 0, 1, 4)
    if chance.random() < 0.1:
        maker.write("x", number)
        return
    status, given, body = not_modified(maker) if is_conditional and chance.random() < 0.8 else response(maker)
    if method == "POST":
        status = chance.choice((200, 204, 201, 404, 503))
    elif status != 304 and chance.random() < 0.12:
        status, given, body = chance.choice((500, 503, 504)), [("date", date_text(maker.moment))], b"sorry"
    maker.answer("r", number, status, given, body, method)


def forwarded(fields):
    return [field for field in fields if field[0] not in ("range", "if-none-match", "if-modified-since")]


def other_exchange(maker, path):
    """An exchange whose reply, of the cache's own, says nothing of itself."""
    chance = maker.chance
    method = chance.choice(("GET", "GET", "GET", "GET", "HEAD", "POST"))
    fields = asked(chance)
    number = maker.ask("q", method, path, fields)
    if chance.random() < 0.9:
        forward(maker, path, method, number, forwarded(fields))
    maker.answer("a", number, 502, [("date", date_text(maker.moment))], b"", method)


def window(maker, path, number, method, fields):
    """What stands between the request and its reply."""
    chance = maker.chance
    own = forwarded(fields)
    for _ in range(chance.choice((0, 0, 1, 1, 1, 2, 3))):
        what = chance.random()
        if what < 0.55:
            forward(maker, path, method if chance.random() < 0.8 else "GET", number, own)
        elif what < 0.7:
            other_exchange(maker, path)
        elif what < 0.8:
            forward(maker, path, chance.choice(("GET", "HEAD", "POST")), None, own)
        elif what < 0.9:
            forward(maker, PATHS[1], "GET", number, own)
        else:
            forward(maker, path, method, number, own, OTHER)
        maker.wait(0, 0, 1)


# -- The last reply


def base(maker, reply):
    """What the reply is made of: a stored response, any of the target or of the window, or nothing."""
    chance, ends = maker.chance, [end for end in reply.recording.ends(reply.position) if end.kind == "r"]
    kind = chance.random()
    if kind < 0.6 and reply.states:
        by_reach = sorted(reply.states, key=lambda state: reply.breaks(state) or 10)
        state = by_reach[-1] if chance.random() < 0.7 else chance.choice(by_reach)
        kept, now = list(state.fields), reply.moment
        updates = [record for record, _ in state.not_about] + [end for end in ends if end.of.method == "HEAD"]
        if updates and chance.random() < 0.15:
            record = chance.choice(updates)
            kept = walks.replaced(kept, walks.stored_fields(record.fields, record.moment)[0])
        age = state.age(now, by_age_alone=True) if chance.random() < 0.1 else state.age(now)
        return state.status, [*kept, ("age", str(age))], state.body, state.lifetime() - age
    if kind < 0.95 and ends:
        end = chance.choice([end for end in chance.choice((reply.window, reply.ends)) if end.kind == "r"] or ends)
        out = walks.removed(end.fields)
        kept = [field for field in end.fields if field[0] not in out]
        aged = [("age", str(reply.moment - end.moment))] if chance.random() < 0.4 else []
        return end.status, kept + aged, end.body, None
    status = chance.choice((200, 502, 504))
    return status, [("date", date_text(reply.moment))], b"made" if chance.random() < 0.5 else b"", None


def as_part(chance, status, fields, body):
    """A part of it, or that there is none, or a 304 of it, as the request may ask for."""
    kind = chance.random()
    if kind < 0.35:
        return 304, [field for field in fields if field[0] in (*walks.REPEATED, "age")], b""
    if kind < 0.7 and len(body) > 1:
        return 206, [*fields, ("content-range", f"bytes 0-1/{len(body)}")], body[:2]
    told = f"bytes */{len(body) + chance.choice((0, 0, 1))}"
    return 416, [*fields, ("content-range", told)], b"" if kind < 0.85 else body


def change_field(chance, fields):
    """Drops a field, adds one, or changes one, which may mean the same."""
    place = chance.randrange(len(fields)) if fields else 0
    if not fields or chance.random() < 0.35:
        return [*fields, chance.choice((("x-new", "1"), ("content-type", "a/b"), ("x-a", "1"), ("server", "s")))]
    name, value = fields[place]
    kind = chance.random()
    if kind < 0.4:
        return fields[:place] + fields[place + 1 :]
    if name == "date":
        value = date_text(walks.date_of(value) + 3)
    elif kind < 0.7 and "," in value:
        value = value.replace(", ", ",") if ", " in value else value.replace(",", ", ")
    else:
        value = value + chance.choice(("0", "x"))
    return [*fields[:place], (name, value), *fields[place + 1 :]]


def change_age(chance, fields):
    found = values(fields, "age")
    kept = [field for field in fields if field[0] != "age"]
    age = walks.number(found[0]) if found else 0
    lines = chance.choice(([], [], [max(0, (age or 0) + chance.choice((-9, -2, 1, 3, 40)))], [age, age], ["soon"]))
    return kept + [("age", str(line)) for line in lines]


def mark(chance, ttl):
    """A Cache-Status, most often that of a hit."""
    said = f";ttl={ttl + chance.choice((0, 0, 2, -9))}" if ttl is not None and chance.random() < 0.4 else ""
    kinds = [f"c;hit{said}"] * 5 + ["c;fwd=stale"] * 2 + ["c;fwd=miss;collapsed"] + [
        "c;hit;fwd=miss", "c", None, "o;fwd=miss, c;hit", "o;hit, c;fwd=miss"]
    return chance.choice(kinds)


def last_reply(maker, number, settings, method):
    """Writes the reply that is explained."""
    chance = maker.chance
    status, fields, body, ttl = base(maker, maker.reply(number, settings))
    if chance.random() < (0.6 if "ranges" in settings.allow else 0.15):
        status, fields, body = as_part(chance, status, fields, body)
    for change, share in ((change_field, 0.3), (change_field, 0.1), (change_age, 0.25)):
        fields = change(chance, fields) if chance.random() < share else fields
    if chance.random() < 0.12:
        status = chance.choice((200, 203, 404, 412, 503))
    if chance.random() < 0.1:
        body = chance.choice(BODIES)
    said = mark(chance, ttl)
    maker.answer("a", number, status, [*fields, *([("cache-status", said)] if said else [])], body, method)


def made(chance):
    """A recording, and the settings of an audit."""
    maker, path = Maker(chance), PATHS[0]
    settings = walks.Settings()
    for name, choices in SETTINGS.items():
        if chance.random() < 0.12:
            setattr(settings, name, chance.choice(choices))
    for _ in range(chance.randrange(1, 5)):
        other_exchange(maker, path if chance.random() < 0.85 else PATHS[1])
        maker.wait(0, 1, 5, 20)
    for _ in range(chance.choice((0, 0, 0, 0, 12))):
        forward(maker, path, chance.choice(("GET", "POST")))
    maker.wait(0, 5, 20, 70)
    method, fields = chance.choice(("GET",) * 8 + ("HEAD", "POST")), asked(chance)
    if "ranges" in settings.allow and not values(fields, "range"):
        fields.append(("range", "bytes=0-1"))
    number = maker.ask("q", method, path, fields)
    window(maker, path, number, method, fields)
    last_reply(maker, number, settings, method)
    return maker.octets, settings


def history(chance, reason):
    """A recording and its last reply, which is wrong by that reason, or right by 0; by another, where that is rare."""
    for _ in range(MOST_TRIED):
        octets, settings = made(chance)
        recording = walks.Recording(octets)
        reply = walks.Reply(recording, recording.records[-1], settings)
        if reply.reason() == reason and (reason or reply.way != "unmarked"):
            break
    return octets, reply
