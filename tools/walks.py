"""A recording as docs/RULES.md and the RFCs read it, apart from hcache: its records, what becomes of each response that
may be stored, and which rule each breaks that a reply may carry. tools/check_facts holds explanations against that."""

import contextlib
import copy
import dataclasses
import datetime
import functools
import re

MOST = 2147483648
NAMES = ("", "NoResponse", "Vary", "Invalidated", "NoExplicitFreshness", "NotAllowed", "Body", "Fields", "Age", "Ttl",
         "NotForwarded", "Unmarked", "BothMarks", "NotCollapsible")
VARY, INVALIDATED, LIFETIME, USE, BODY, FIELDS, AGE, TTL = range(2, 10)

HEURISTIC = {200, 203, 204, 300, 301, 308, 404, 405, 410, 414, 501}
UNDERSTOOD = {200, 203, 204, 300, 301, 302, 307, 308, 404, 405, 410, 414, 501}
ERRORS = {500, 502, 503, 504}
OF_CONNECTION = {"connection", "proxy-connection", "keep-alive", "te", "transfer-encoding", "upgrade", "trailer"}
OF_PROXY = {"proxy-authenticate", "proxy-authentication-info", "proxy-authorization"}
REPEATED = ("cache-control", "content-location", "date", "etag", "expires", "vary")
OF_CONTENT = {"content-encoding", "content-language", "content-location", "content-range", "content-type", "etag",
              "last-modified"}
NEGOTIATED = {"accept", "accept-charset", "accept-encoding", "accept-language"}
FORBID_STALE = ("no-cache", "must-revalidate", "proxy-revalidate", "s-maxage")

TOKEN = r"[!#$%&'*+.^_`|~0-9A-Za-z-]+"
IS_TOKEN = re.compile(TOKEN)
DIRECTIVE = re.compile(rf'({TOKEN})(?:=({TOKEN}|"(?:[^"\\]|\\.)*"))?', re.DOTALL)
TAG = re.compile('(?:W/)?"[!#-~\x80-\xff]*"')
DATES = ("%a, %d %b %Y %H:%M:%S GMT", "%A, %d-%b-%y %H:%M:%S GMT", "%a %b %e %H:%M:%S %Y")
ITEM = r"""(?:"(?:[ !#-\[\]-~]|\\["\\])*"|[A-Za-z*][!#$%&'*+.^_`|~0-9A-Za-z:/-]*|\?[01]|:[A-Za-z0-9+/=]*:|""" + (
    r"""-?\d{1,12}\.\d{1,3}|-?\d{1,15})""")
PARAMETER = rf"; *([a-z*][a-z*0-9_.-]*)(?:=({ITEM}))?"
MEMBER = rf"({ITEM})((?:; *[a-z*][a-z*0-9_.-]*(?:={ITEM})?)*)"
LIST = re.compile(rf" *(?:{MEMBER}[ \t]*,[ \t]*)*{MEMBER}[ \t]*")
ABSOLUTE = re.compile("(?i)http://([^/?]*)(.*)")
RANGE = re.compile("bytes (0|[1-9][0-9]*)-(0|[1-9][0-9]*)/(0|[1-9][0-9]*)")


class Unread(Exception):
    """A recording that this reader doesn't take."""


# -- Fields


def values(fields, name):
    return [value for known, value in fields if known == name]


def joined(fields, name):
    """The lines of a field as one; none where there is none."""
    return ", ".join(values(fields, name)) if values(fields, name) else None


def members(value):
    """The members of a list: it is cut at the commas outside quoted strings."""
    found = re.findall(r'((?:[^",]|"(?:[^"\\]|\\.)*(?:"|$))+)', value, re.DOTALL)
    return [member.strip(" \t") for member in found if member.strip(" \t")]


def all_members(fields, name):
    return [member for value in values(fields, name) for member in members(value)]


def number(text):
    return min(int(text), MOST) if text and re.fullmatch("[0-9]+", text) else None


def directives(fields):
    """The directives of Cache-Control: for each name the argument that stands first, none for a bare one."""
    found = {}
    for match in map(DIRECTIVE.fullmatch, all_members(fields, "cache-control")):
        if match:
            said = match[2]
            said = re.sub(r"\\(.)", r"\1", said[1:-1]) if said and said.startswith('"') else said
            found.setdefault(match[1].lower(), said)
    return found


def seconds(fields, name):
    """What a directive says: none where it isn't there, its seconds, or a text where it is bare or says no number."""
    said = directives(fields)
    found = number(said.get(name))
    return found if found is not None else (said[name] or "") if name in said else None


@functools.cache
def date_of(text):
    """The moment of a date in one of the three formats; none where it is no date."""
    for form in DATES:
        with contextlib.suppress(ValueError):
            found = datetime.datetime.strptime(text, form.replace("%e", "%d"))
            if found.strftime(form) == text and found.year >= 1970:
                return int(found.replace(tzinfo=datetime.timezone.utc).timestamp())
    return None


def date_text(moment):
    return datetime.datetime.fromtimestamp(moment, datetime.timezone.utc).strftime(DATES[0])


def removed(fields):
    """The names that a store leaves out."""
    return OF_CONNECTION | OF_PROXY | {member.lower() for member in all_members(fields, "connection")}


def stored_fields(fields, moment):
    """What is stored of fields that came at that moment, and their Date."""
    out = removed(fields) | {"age"}
    kept = [field for field in fields if field[0] not in out]
    dates = values(kept, "date")
    date = date_of(dates[0]) if len(dates) == 1 else None
    if date is None:
        date = moment
        kept = [field for field in kept if field[0] != "date"] + [("date", date_text(moment))]
    return kept, date


def replaced(fields, made):
    """The fields with others in place of those of their names."""
    return [field for field in fields if field[0] not in dict(made)] + made


def only(fields, name):
    """The one line of a validator, if there is one, and it isn't too long."""
    found = values(fields, name)
    return found[0] if len(found) == 1 and len(found[0]) <= 1024 else None


def tag_of(fields):
    found = only(fields, "etag")
    return found if found and TAG.fullmatch(found) else None


def modified_of(fields):
    return only(fields, "last-modified")


def weak(tag):
    return tag.removeprefix("W/")


def agree(one, other, name):
    if not values(one, name) or not values(other, name):
        return not values(one, name) and not values(other, name)
    read = all_members if name in NEGOTIATED else joined
    return read(one, name) == read(other, name)


def unmet(state, presented, passed_over=()):
    """The members of a stored response's Vary by which it doesn't answer a request of these fields."""
    return [member for member in all_members(state.fields, "vary") if not IS_TOKEN.fullmatch(member) or member == "*"
            or member.lower() not in passed_over and not agree(state.asked, presented, member.lower())]


def mark_of(fields):
    """What the last member of Cache-Status says: whether it is a hit, or went forward, or was collapsed, and its ttl.
    None where it says nothing."""
    found = LIST.fullmatch(joined(fields, "cache-status") or "")
    if not found or not re.match('["A-Za-z*]', found[3]):
        return None
    said = {key: value or "?1" for key, value in re.findall(PARAMETER, found[4])}
    ttl = said.get("ttl", "")
    mark = {"hit": said.get("hit") == "?1", "fwd": "fwd" in said, "collapsed": said.get("collapsed") == "?1",
            "ttl": int(ttl) if re.fullmatch("-?[0-9]+", ttl) else None}
    return mark if mark["hit"] or mark["fwd"] else None


# -- Records


@dataclasses.dataclass(eq=False)
class Record:
    """A record: a request has a method and a target, a response a status; what answers knows what it answers."""
    position: int
    kind: str
    number: int
    moment: int
    cause: object = None
    of: object = None
    method: str = ""
    host: str = ""
    path: str = ""
    status: int = 0
    fields: list = ()
    body: bytes = b""

    @property
    def target(self):
        return self.host + self.path


def read_message(octets, is_bodyless):
    """The first line, the fields and the body of a message."""
    head, gap, rest = octets.partition(b"\r\n\r\n")
    first, *lines = head.decode("latin-1").split("\r\n")
    fields = [(name.lower(), value.strip(" \t")) for name, _, value in (line.partition(":") for line in lines)]
    length, framing = joined(fields, "content-length"), ("content-length", "transfer-encoding")
    if not gap or not all(IS_TOKEN.fullmatch(name) for name, _ in fields):
        raise Unread
    if is_bodyless:
        rest = b""
    elif values(fields, "transfer-encoding"):
        rest = unchunked(rest)
    elif length is not None:
        rest = rest[: int(length.split(",")[0])]
    return first.split(" ", 2), [field for field in fields if field[0] not in framing], rest


def unchunked(octets):
    """The body that chunks make up."""
    body = b""
    while size := int(re.match(rb"[0-9A-Fa-f]*", octets)[0], 16):
        octets = octets.partition(b"\r\n")[2]
        body, octets = body + octets[:size], octets[size + 2 :]
    return body


class Recording:
    """The records of a transcript, and its format."""

    def __init__(self, octets):
        self.format = {b"HCT1\n": 1, b"HCT2\n": 2}.get(octets[:5])
        self.records, place, open_ = [], 5, {}
        if not self.format:
            raise Unread
        try:
            while place < len(octets):
                end = octets.index(b"\n", place)
                kind, number_, moment, length, *cause = octets[place:end].decode("ascii").split(" ")
                place = end + 1 + int(length)
                held, place = octets[end + 1 : place], place + 1
                if len(held) < int(length) or octets[place - 1 : place] != b"\n":
                    raise Unread
                record = Record(len(self.records) + 1, kind, int(number_), int(moment))
                self.records.append(record)
                if cause and cause[0] != "-":
                    record.cause = int(cause[0])
                self.fill(record, held, open_)
        except (ValueError, KeyError, IndexError, UnicodeDecodeError) as why:
            raise Unread from why

    def fill(self, record, held, open_):
        if record.kind in "qf":
            (record.method, record.path, _), record.fields, record.body = read_message(held, False)
            host, open_[record.kind, record.number] = values(record.fields, "host")[0], record
            if found := ABSOLUTE.fullmatch(record.path):
                host, record.path = found[1], found[2] if found[2].startswith("/") else "/" + found[2]
            record.host = re.sub(":(80)?$", "", host.lower())
            if not record.path.startswith("/"):
                raise Unread
            return
        record.of = open_.pop(("q" if record.kind == "a" else "f", record.number))
        if record.kind in "ra":
            record.status = int(held.split(b" ", 2)[1][:3])
            is_bodyless = record.of.method == "HEAD" or record.status in (204, 304)
            _, record.fields, record.body = read_message(held, is_bodyless)

    def ends(self, before, after=0):
        """The records between two positions by which forwards end."""
        return [record for record in self.records[after : before - 1] if record.kind in "rx"]

    def replies(self):
        return [record for record in self.records if record.kind == "a"]


# -- What is stored


def words_of(**found):
    """The words of what is so."""
    return {word for word, is_so in found.items() if is_so}


def forbids(response):
    """What forbids to store a response, each by a word."""
    asked, said, status = response.of, directives(response.fields), response.status
    invites = said.keys() & {"public", "max-age", "s-maxage"}
    shares = said.keys() & {"must-revalidate", "public", "s-maxage"}
    return words_of(
        method=asked.method != "GET",
        request_no_store="no-store" in directives(asked.fields),
        status=not 200 <= status <= 599 or status in (206, 304),
        must_understand="must-understand" in said and status not in UNDERSTOOD,
        no_store="no-store" in said and "must-understand" not in said,
        private="private" in said,
        authorization=values(asked.fields, "authorization") and not shares,
        uninvited=not invites and not values(response.fields, "expires") and status not in HEURISTIC)


class State:
    """A stored response, as the records up to some position have left it."""

    def __init__(self, response):
        self.response, self.position, self.asked = response, response.position, response.of.fields
        self.status, self.body, self.validator = response.status, response.body, None
        self.not_about, self.invalidated_by = [], []
        self.take_times(response, stored_fields(response.fields, response.moment))

    def take_times(self, response, made):
        self.fields, self.date = made
        first = [member for value in values(response.fields, "age")[:1] for member in members(value)[:1]]
        self.age_value = (number(first[0]) if first else 0) or 0
        self.request_time, self.response_time = response.of.moment, response.moment

    @property
    def validated_at(self):
        return self.validator and self.validator.position

    @property
    def settled(self):
        """The position from which on it is as it is, but for what invalidates it."""
        return self.validated_at or self.position

    def take(self, record):
        """Takes in the end of a forward of its target."""
        if record.kind == "x":
            return
        if record.status == 304:
            if against(record, self):
                self.not_about.append((record, copy.copy(self)))
            else:
                self.freshen(record)
        if 200 <= record.status <= 399 and record.of.method not in ("GET", "HEAD", "OPTIONS", "TRACE"):
            self.invalidated_by = [*self.invalidated_by, record]

    def freshen(self, record):
        made, date = stored_fields(record.fields, record.moment)
        self.take_times(record, (replaced(self.fields, made), date))
        self.validator, self.invalidated_by = record, []

    def age(self, now, by_age_alone=False):
        apparent = 0 if by_age_alone else self.response_time - self.date
        corrected = self.age_value + max(0, self.response_time - self.request_time)
        return min(MOST, max(apparent, corrected) + max(0, now - self.response_time))

    def is_explicit(self):
        return bool(directives(self.fields).keys() & {"s-maxage", "max-age"} or values(self.fields, "expires"))

    def lifetime(self):
        for name in ("s-maxage", "max-age"):
            if (said := seconds(self.fields, name)) is not None:
                return said if isinstance(said, int) else 0
        expires = values(self.fields, "expires")
        moment = date_of(expires[0]) if expires else None
        return 0 if moment is None else min(MOST, max(0, moment - self.date))

    def takes_default(self):
        return not self.is_explicit() and ("public" in directives(self.fields) or self.status in HEURISTIC)


def told_by(record, state):
    """By which field a 304 tells which response it is about, where that stands, what the response has for it, and
    whether they agree."""
    asked, said, due = record.of.fields, record.fields, state.fields
    if tag_of(said):
        return "etag", said, "etag", tag_of(said) == tag_of(due)
    if modified_of(said):
        return "last-modified", said, "last-modified", modified_of(said) == modified_of(due)
    if values(asked, "if-none-match"):
        return "if-none-match", asked, "etag", members(joined(asked, "if-none-match")) == [tag_of(due)]
    return "if-modified-since", asked, "last-modified", values(asked, "if-modified-since") == [modified_of(due)]


def against(record, state):
    """All that stands against that a 304 of its target is about a stored response, each by a word."""
    name, _, _, is_so = told_by(record, state)
    asked, said = directives(record.of.fields), directives(record.fields)
    return words_of(earlier=record.position < state.position, method=record.of.method != "GET",
                    forward_no_store="no-store" in asked, private="private" in said, no_store="no-store" in said,
                    vary=unmet(state, record.of.fields), **{name: not is_so})


# -- Replies


@dataclasses.dataclass
class Settings:
    """What an audit is told to let pass."""
    slack: int = 0
    age_slack: int = 0
    default_ttl: int = None
    grace: int = None
    allow: tuple = ()
    normalized: tuple = ()
    ignore: tuple = ()
    infer_marks: bool = False
    errors_only: bool = False

    def words(self):
        found = []
        for name, value in vars(self).items():
            option = "--" + name.replace("_", "-")
            if value is True:
                found.append(option)
            elif value != getattr(Settings, name):
                found += [option, ",".join(value) if isinstance(value, tuple) else str(value)]
        return found

    @classmethod
    def read(cls, words):
        """The settings of these words; options that aren't about what is right are passed over."""
        found, words = cls(), [part for word in words for part in word.split("=", 1)]
        for word, value in zip(words, [*words[1:], ""]):
            name = word.removeprefix("--").replace("-", "_")
            if name in vars(found) and word.startswith("--"):
                was = getattr(cls, name)
                value = tuple(value.lower().split(",")) if was == () else True if was is False else int(value)
                setattr(found, name, ("added-fields", "joined-lines", "ranges") if value == ("all",) else value)
        return found


class Reply:
    """A reply, with what stands before it."""

    def __init__(self, recording, record, settings):
        self.recording, self.record, self.settings, self.request = recording, record, settings, record.of
        self.since, self.position, self.moment = record.of.position, record.position, record.moment
        self.is_head = self.request.method == "HEAD"
        self.ends = [end for end in recording.ends(self.position) if end.of.target == self.request.target]
        self.window = [end for end in self.ends if end.position > self.since]
        self.states = [self.state_of(end) for end in self.ends if end.kind == "r" and not forbids(end)]
        self.find_way()

    def state_of(self, response):
        state = State(response)
        state.not_about = [(end, state) for end in self.ends if end.status == 304 and end.position < state.position]
        for end in self.ends:
            if end.position > state.position:
                state.take(end)
        return state

    def by(self, **changed):
        """The same reply by other settings."""
        other = copy.copy(self)
        other.settings = dataclasses.replace(self.settings, **changed)
        return other

    def find_way(self):
        """As what it is judged."""
        mark = mark_of(self.record.fields) or {}
        is_two, status = self.recording.format == 2, self.record.status
        self.is_both, self.is_inferred, self.way = bool(mark.get("hit") and mark["fwd"]), False, "unmarked"
        self.ttl = mark["ttl"] if mark.get("hit") else None
        if mark.get("fwd") and not self.is_both:
            self.way = "collapsed" if mark["collapsed"] and is_two else "forwarded"
        elif mark and not self.is_both and status != 206:
            self.way = "hit"
        elif not mark and self.settings.infer_marks and is_two and status < 400:
            sent = self.recording.records[self.since : self.position - 1]
            went = any(each.kind == "f" and each.cause == self.record.number for each in sent)
            self.is_inferred = went or status != 206
            self.way = "forwarded" if went else "hit" if self.is_inferred else "unmarked"

    def is_alone(self):
        """Whether no other exchange was open in its window, so that what stands there was made for it."""
        sent = self.recording.records[self.since : self.position - 1]
        return not any(each.kind == "q" or each.kind == "a" and each.of.position < self.since for each in sent)

    # What it may carry of its window.

    def has_body(self, body):
        return not self.record.body if self.is_head else self.record.body == body

    def is_given(self, response):
        return response.status == self.record.status and self.has_body(response.body)

    def may_be_for(self, end):
        return self.recording.format == 1 or end.of.cause == self.record.number

    def asks_the_same(self, end):
        return end.of.method == self.request.method or self.is_head and end.of.method == "GET"

    def is_part(self, status, body):
        """Whether it is a part of a whole of that status and body, or says that there is no such part."""
        if status != 200 or self.request.method != "GET" or not values(self.request.fields, "range"):
            return False
        told, whole = values(self.record.fields, "content-range"), len(body)
        if self.record.status == 416:
            return told == [f"bytes */{whole}"]
        found = RANGE.fullmatch(told[0]) if len(told) == 1 else None
        if not found or self.record.status != 206:
            return False
        first, last, length = map(int, found.groups())
        return first <= last < length == whole and self.record.body == body[first : last + 1]

    def carries(self, end, ranges=None):
        """Whether it carries the end of a forward, as far as its method and what it holds tell."""
        if end.kind != "r" or not self.asks_the_same(end):
            return False
        ranges = "ranges" in self.settings.allow if ranges is None else ranges
        return self.is_given(end) or ranges and self.is_part(end.status, end.body)

    def carried(self, ranges=None):
        """The latest response of its window that it carries, to a forward that may have been made for it."""
        found = [end for end in self.window if self.may_be_for(end) and self.carries(end, ranges)]
        return found[-1] if found else None

    # The rules on a stored response.

    def trouble(self):
        """The latest error of the window, and the latest failure."""
        error = next((end for end in reversed(self.window) if end.status in ERRORS), None)
        return error, next((end for end in reversed(self.window) if end.kind == "x"), None)

    def is_validated(self, state):
        return state.validator is not None and state.validated_at > self.since

    def has_default(self, state):
        return self.settings.default_ttl is not None and state.takes_default()

    def lifetime(self, state):
        return self.settings.default_ttl if self.has_default(state) else state.lifetime()

    def stale_by(self, state):
        """By how many seconds it is stale; none where it is fresh."""
        over = state.age(self.moment) - self.lifetime(state)
        return over if over >= 0 else None

    def permits(self, state):
        """What permits to give a stale response, each by a word."""
        asked, said, stale = self.request.fields, state.fields, self.stale_by(state) or 0
        error, failure = self.trouble()

        def is_enough(seconds_):
            return isinstance(seconds_, int) and stale <= seconds_ + self.settings.slack

        max_stale = seconds(asked, "max-stale")
        found = words_of(
            max_stale=max_stale == "" or is_enough(max_stale),
            grace=is_enough(self.settings.grace), unreachable=failure,
            stale_while_revalidate=is_enough(seconds(said, "stale-while-revalidate")),
            stale_if_error=(error or failure) and is_enough(seconds(said, "stale-if-error")),
            asked_stale_if_error=(error or failure) and is_enough(seconds(asked, "stale-if-error")))
        return set() if directives(said).keys() & set(FORBID_STALE) else found

    def is_fresh(self, state):
        return self.lifetime(state) + self.settings.slack > state.age(self.moment)

    def is_usable(self, state):
        if self.is_validated(state):
            return True
        return "no-cache" not in directives(state.fields) and (self.is_fresh(state) or bool(self.permits(state)))

    def earns_304(self, state):
        asked, tag = self.request.fields, tag_of(state.fields)
        if values(asked, "if-none-match"):
            told = all_members(asked, "if-none-match")
            return values(asked, "if-none-match") == ["*"] or tag is not None and weak(tag) in map(weak, told)
        lines = values(asked, "if-modified-since"), values(state.fields, "last-modified")
        since, modified = (date_of(each[0]) if len(each) == 1 else None for each in lines)
        return since is not None and modified is not None and modified <= since

    def has_content(self, state):
        is_304 = self.record.status == 304 and not self.record.body and state.status == 200
        return self.is_given(state) or is_304 and self.earns_304(state) or self.is_no_part(state)

    def is_no_part(self, state):
        return "ranges" in self.settings.allow and self.record.status == 416 and self.is_part(state.status, state.body)

    def gaps(self, state):
        """The names of which it has other values than a stored response, in order."""
        told, due, settings = self.record.fields, state.fields, self.settings
        names = [name for name, _ in told]
        names += REPEATED if self.record.status == 304 else [name for name, _ in due]
        out = removed(told) | {"content-length", "via", "cache-status", "age"} | set(settings.ignore)
        return [name for name in dict.fromkeys(names) if name not in out and self.differs(name, told, due)]

    def differs(self, name, told, due):
        allow, one, other = self.settings.allow, values(told, name), values(due, name)
        if "added-fields" in allow and not other and name not in OF_CONTENT:
            return False
        if "joined-lines" in allow and one and other and name != "set-cookie":
            return ", ".join(one) != ", ".join(other)
        return one != other

    def has_age(self, state):
        told = values(self.record.fields, "age")
        found, slack = number(told[0]) if len(told) == 1 else None, max(self.settings.slack, self.settings.age_slack)
        return found is not None and abs(found - state.age(self.moment)) <= slack

    def has_ttl(self, state):
        due = state.lifetime() - state.age(self.moment)
        return self.ttl is None or self.has_default(state) or abs(self.ttl - due) <= self.settings.slack

    def breaks(self, state):
        """The first rule that a stored response breaks, by its number; 0 where it keeps all."""
        rules = (
            lambda: self.request.method in ("GET", "HEAD"),
            lambda: not unmet(state, self.request.fields, self.settings.normalized),
            lambda: not state.invalidated_by,
            lambda: state.is_explicit() or self.is_usable(state),
            lambda: self.is_usable(state),
            lambda: self.has_content(state),
            lambda: self.is_no_part(state) or not self.gaps(state),
            lambda: self.has_age(state),
            lambda: self.has_ttl(state),
        )
        return next((at for at, rule in enumerate(rules, 1) if not rule()), 0)

    def furthest(self, states):
        """How many rules one of them keeps at most."""
        return max(((self.breaks(state) or 10) - 1 for state in states), default=0)

    def reason(self):
        """The number of the reason by which it is wrong; 0 where it is right."""
        behind = [state for state in self.states if state.position > self.since]
        if self.is_both:
            return 12
        if self.way == "hit":
            return (self.furthest(self.states) + 1) % 10
        if self.way == "collapsed":
            return 0 if self.furthest(behind) >= 8 else 13
        if self.way == "forwarded":
            recent = behind + [state for state in self.states if self.is_validated(state)]
            reaches = self.furthest(self.states) >= (9 if self.is_inferred else 7)
            return 0 if self.carried() or reaches or self.is_inferred and self.furthest(recent) >= 7 else 10
        return 11 if self.settings.errors_only and self.record.status < 400 else 0
