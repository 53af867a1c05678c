"""What `tools/exercise` asks of a cache, and what the origin behind it answers.

Each kind of exchange has targets of its own, so that nothing of one kind changes what another gets. What is asked of a
kind is told in rounds, between which what lives for two seconds becomes stale. An ask is a line: the method; `hit`
where a cache that stores all it may could answer from its store; `1.0` for a client of HTTP/1.0; what follows the path;
and behind bars the fields.

What the RFCs leave open isn't asked where hcache's rules refuse a part of it, whatever the settings of the audit: a
Date that is older than the Age says, a range or a HEAD of what has to be validated by a tag, a 304 with `no-store`, and
`private` or `no-cache` of some fields alone. Each could be told as wrong of a cache that keeps to the RFCs."""

import collections
import random

from pages import NOTHING, Page

LONG, SHORT = "Cache-Control: max-age=600", "Cache-Control: max-age=2"
GERMAN, ENGLISH = "Accept-Language: de", "Accept-Language: en"
SECRET, OTHER_SECRET = "Authorization: Basic YTpi", "Authorization: Basic Yzpk"
TAG, DATED = {"tag": '"one"'}, {"is_dated": True}
BOTH = TAG | DATED
COOKIES = "Set-Cookie: a=1", "Set-Cookie: b=2"

Kind = collections.namedtuple("Kind", "name page rounds")
Ask = collections.namedtuple("Ask", "kind could_hit octets method")

KINDS = {}
AT_ONCE = "at-once/all"  # the kind whose requests are all asked at once, but for the last


def kind(name, page, *rounds):
    """Adds a kind of exchange."""
    KINDS[name] = Kind(name, page, rounds)


def plain(name, *lines, hits=True, **how):
    """Adds a kind that is asked for twice: at once, or where that couldn't be a hit, when seconds are over in which
    `--slack` may make one right."""
    kind(name, Page(*lines, **how), *([["GET", "GET hit"]] if hits else [["GET"], ["GET"]]))


# -- What is fresh, and for how long

kind("hit/tagged", Page(LONG, **TAG), ["GET", "GET hit", "GET hit"], ["GET hit"])
kind("lifetime/expires", Page("Expires: @600"), ["GET", "GET hit"], ["GET hit"])
kind("lifetime/expires-soon", Page("Expires: @2", **TAG), ["GET", "GET hit"], ["GET"])
plain("lifetime/expires-zero", "Expires: 0", hits=False, **TAG)
plain("lifetime/expires-past", "Expires: @-600", LONG)
plain("lifetime/shared", "Cache-Control: max-age=0, s-maxage=600")
plain("lifetime/shared-zero", "Cache-Control: max-age=600, s-maxage=0", hits=False, **TAG)
plain("lifetime/quoted", 'Cache-Control: max-age="600"')
plain("lifetime/capitals", "CACHE-CONTROL: Max-Age=600")
plain("lifetime/unreadable", "Cache-Control: max-age=soon", hits=False)
plain("lifetime/twice", "Cache-Control: max-age=600", "Cache-Control: max-age=0")
plain("lifetime/pragma", LONG, "Pragma: no-cache")
plain("lifetime/extension", 'Cache-Control: max-age=600, a="b, no-store"')
plain("heuristic/dated", hits=False, is_dated=True)
plain("heuristic/gone", hits=False, status=410)
plain("age/told", LONG, "Age: 100")
plain("age/over", LONG, "Age: 700", hits=False, **TAG)
plain("age/old-date", LONG, "Date: @-100", "Age: 100")
plain("age/later-date", LONG, "Date: @100")
plain("age/no-date", LONG, has_date=False)
kind("age/slow", Page(LONG, pause=2.3), ["GET", "GET hit"])

# -- Validations

AGAIN = ["GET", "GET hit"], ["GET", "GET hit"]
kind("validation/tag", Page(SHORT, **TAG), *AGAIN, ["GET"])
kind("validation/date", Page(SHORT, **DATED), *AGAIN, ["GET"])
kind("validation/weak", Page(SHORT, tag='W/"one"'), ["GET"], ["GET", "GET hit"])
kind("validation/both", Page(SHORT, **BOTH), ["GET"], ["GET", "GET hit"])
kind("validation/changed", Page(SHORT, changes=True, **TAG), *AGAIN)
kind("validation/changed-date", Page(SHORT, changes=True, **DATED), ["GET"], ["GET", "GET hit"])
kind("validation/none", Page(SHORT), ["GET"], ["GET", "GET hit"])
kind("validation/freshened", Page(SHORT, "X-Version: 1", again=(LONG, "X-Version: 2"), **TAG), *AGAIN, ["GET hit"])
plain("no-cache/plain", "Cache-Control: no-cache, max-age=600", hits=False, **TAG)
plain("no-cache/zero", "Cache-Control: max-age=0", hits=False, **TAG)
kind("must/revalidate", Page("Cache-Control: max-age=2, must-revalidate", **TAG),
     ["GET", "GET hit"], ["GET | Cache-Control: max-stale", "GET hit"])
kind("must/proxy-revalidate", Page("Cache-Control: max-age=2, proxy-revalidate, stale-if-error=60", later=503),
     ["GET"], ["GET | Cache-Control: max-stale"])
kind("must/unanswered", Page("Cache-Control: max-age=2, must-revalidate", later=NOTHING, **TAG), ["GET"], ["GET"])

# -- What may be stored

plain("private/plain", "Cache-Control: private, max-age=600", hits=False)
plain("no-store/plain", "Cache-Control: no-store, max-age=600", hits=False)
plain("no-store/second-line", LONG, "Cache-Control: no-store", hits=False)
plain("no-store/must-understand", "Cache-Control: must-understand, no-store, max-age=600")
kind("authorization/none", Page(LONG), [f"GET | {SECRET}", "GET", "GET hit", f"GET hit | {SECRET}"])
kind("authorization/public", Page("Cache-Control: public, max-age=600"),
     [f"GET | {SECRET}", f"GET hit | {OTHER_SECRET}", "GET hit"])
kind("authorization/must-revalidate", Page("Cache-Control: must-revalidate, max-age=600"),
     [f"GET | {SECRET}", f"GET hit | {OTHER_SECRET}"])
kind("authorization/shared", Page("Cache-Control: s-maxage=600"), [f"GET | {SECRET}", f"GET hit | {OTHER_SECRET}"])
plain("field/cookies", LONG, *COOKIES)
kind("field/asked-cookie", Page(LONG), ["GET | Cookie: a=1", "GET hit | Cookie: a=1"])
plain("field/hop-by-hop", LONG, "Connection: X-Hop", "X-Hop: 1", "Keep-Alive: timeout=5")
plain("field/two-lines", LONG, "X-Kind: a", "X-Kind: b")
kind("field/encoded", Page(LONG, "Vary: Accept-Encoding", is_encoded=True, **TAG),
     ["GET | Accept-Encoding: gzip", "GET hit | Accept-Encoding: gzip", "GET"])
kind("query/two", Page(LONG), ["GET ?a=1", "GET ?a=2", "GET hit ?a=1", "GET"])
kind("host/two", Page(LONG, by=("host",)), ["GET", "GET hit", "GET | Host: other.example", "GET hit"])

# -- Vary

kind("vary/language", Page(LONG, "Vary: Accept-Language", by=("accept-language",)),
     [f"GET | {GERMAN}", f"GET | {ENGLISH}", f"GET hit | {GERMAN}", "GET", "GET hit"])
kind("vary/two", Page(LONG, "Vary: Accept-Language,X-Kind", by=("accept-language", "x-kind")),
     [f"GET | {GERMAN} | X-Kind: a", f"GET | {GERMAN} | X-Kind: b", f"GET hit | {GERMAN} | X-Kind: a",
      f"GET | {ENGLISH} | X-Kind: a"])
kind("vary/two-lines", Page(LONG, "Vary: Accept-Language", "Vary: X-Kind", by=("accept-language", "x-kind")),
     [f"GET | {GERMAN} | X-Kind: a", f"GET | {GERMAN} | X-Kind: b", f"GET hit | {GERMAN} | X-Kind: a"])
kind("vary/encoding", Page(LONG, "Vary: Accept-Encoding", by=("accept-encoding",)),
     ["GET | Accept-Encoding: gzip", "GET hit | Accept-Encoding: gzip", "GET | Accept-Encoding: br, gzip;q=0.5"])
plain("vary/star", LONG, "Vary: *", hits=False, **TAG)
kind("vary/validated", Page(SHORT, "Vary: Accept-Language", by=("accept-language",), **TAG),
     [f"GET | {GERMAN}", f"GET | {ENGLISH}"], [f"GET | {GERMAN}", f"GET hit | {GERMAN}", f"GET | {ENGLISH}"])

# -- Methods

kind("unsafe/post", Page(LONG, unsafe=200), ["GET", "GET hit", "POST", "GET", "GET hit"])
kind("unsafe/put", Page(LONG, unsafe=204), ["GET", "PUT", "GET"])
kind("unsafe/delete", Page(LONG, unsafe=204), ["GET", "DELETE", "GET"])
kind("unsafe/failed", Page(LONG, unsafe=500), ["GET", "POST", "GET hit"])
kind("unsafe/located", Page(LONG, unsafe=201, located="b"), ["GET b", "GET hit b", "POST", "GET hit b"])
kind("unsafe/chunked", Page(LONG, unsafe=200),
     ["POST | Transfer-Encoding: chunked", "POST | Transfer-Encoding: chunked | Trailer: X-Sum"])
kind("unsafe/options", Page(LONG, unsafe=204), ["GET", "OPTIONS", "GET hit"])
kind("head/and-get", Page(LONG, **TAG), ["HEAD", "GET", "HEAD hit", "GET hit", "HEAD hit"])
kind("head/alone", Page(LONG, **TAG), ["HEAD", "HEAD"])
kind("head/stale", Page(SHORT), ["GET"], ["HEAD", "GET"])

# -- What clients say

kind("condition/stored", Page(LONG, **BOTH), [
    "GET", 'GET hit | If-None-Match: "one"', 'GET hit | If-None-Match: "two"',
    'GET hit | If-None-Match: "two", W/"one"', "GET hit | If-None-Match: *",
    "GET hit | If-Modified-Since: Thu, 01 Jan 2026 00:00:00 GMT",
    "GET hit | If-Modified-Since: Wed, 31 Dec 2025 00:00:00 GMT"])
kind("condition/first", Page(LONG, **BOTH), ['GET | If-None-Match: "one"', "GET", "GET hit"])
kind("condition/match", Page(LONG, **BOTH), ["GET", 'GET | If-Match: "two"', 'GET | If-Match: "one"'])
kind("only-if-cached/fresh", Page(LONG),
     ["GET | Cache-Control: only-if-cached", "GET", "GET hit | Cache-Control: only-if-cached"])
kind("only-if-cached/stale", Page(SHORT, **TAG), ["GET"], ["GET | Cache-Control: only-if-cached"])
kind("request/anew", Page(LONG, **TAG), [
    "GET", "GET | Cache-Control: no-cache", "GET | Cache-Control: max-age=0", "GET hit | Pragma: no-cache",
    "GET | Cache-Control: no-store", "GET hit"])
kind("request/no-store", Page(LONG), ["GET | Cache-Control: no-store", "GET", "GET hit"])
kind("request/max-age", Page(LONG, **TAG),
     ["GET", "GET hit | Cache-Control: max-age=60"], ["GET | Cache-Control: max-age=1"])
kind("request/min-fresh", Page(LONG, **TAG),
     ["GET", "GET hit | Cache-Control: min-fresh=10", "GET | Cache-Control: min-fresh=1000"])
kind("request/max-stale", Page(SHORT, **TAG), ["GET"], [
    "GET hit | Cache-Control: max-stale", "GET hit | Cache-Control: max-stale=60", "GET | Cache-Control: max-stale=0"])

# -- What is stale

REVALIDATED = "Cache-Control: max-age=2, stale-while-revalidate=60"
IF_ERROR = "Cache-Control: max-age=2, stale-if-error=60"
BEHIND = 0.4  # seconds of the origin, so that a stale reply is recorded before what comes in the background
kind("stale/revalidated", Page(REVALIDATED, pause=BEHIND, **TAG), ["GET"], ["GET hit", "GET hit"], ["GET hit"])
kind("stale/revalidated-changed", Page(REVALIDATED, pause=BEHIND, changes=True, **TAG), ["GET"], ["GET hit", "GET hit"])
kind("stale/revalidated-over", Page("Cache-Control: max-age=1, stale-while-revalidate=1", **TAG), ["GET"], ["GET"])
kind("stale/if-error", Page(IF_ERROR, later=503, **TAG), ["GET"], ["GET hit"])
kind("stale/if-no-answer", Page(IF_ERROR, later=NOTHING), ["GET"], ["GET hit"])
kind("stale/if-missing", Page(IF_ERROR, later=404, **TAG), ["GET"], ["GET"])
kind("stale/if-error-over", Page("Cache-Control: max-age=1, stale-if-error=1", later=500), ["GET"], ["GET"])
kind("stale/asked-if-error", Page(SHORT, later=503), ["GET"], ["GET hit | Cache-Control: stale-if-error=60"])
kind("stale/failing", Page(SHORT, later=503, **TAG), ["GET"], ["GET"])
kind("stale/no-answer", Page(SHORT, later=NOTHING, **TAG), ["GET"], ["GET hit"])

# -- Statuses and errors

for known in (204, 301, 302, 404, 500, 503):
    plain(f"status/{known}", LONG, status=known)
plain("status/302-alone", hits=False, status=302)
plain("status/404-alone", hits=False, status=404)
kind("status/none", Page(LONG, status=NOTHING), ["GET"])
kind("status/cut", Page(LONG, framing="cut"), ["GET"])

# -- Ranges

kind("range/stored", Page(LONG, has_ranges=True, **BOTH), [
    "GET | Range: bytes=0-9", "GET", "GET | Range: bytes=10-19", "GET | Range: bytes=-5", "GET | Range: bytes=99999-",
    'GET | Range: bytes=0-9 | If-Range: "one"', 'GET | Range: bytes=0-9 | If-Range: "two"', "GET hit"])
kind("range/refused", Page(LONG), ["GET | Range: bytes=0-9", "GET"])
kind("range/unsatisfiable", Page(LONG, has_ranges=True, **TAG), ["GET | Range: bytes=99999-", "GET"])
kind("range/stale", Page(SHORT, has_ranges=True), ["GET"], ["GET | Range: bytes=0-9", "GET"])

# -- Framing

for framing in ("chunked", "trailers", "close", "old"):
    plain(f"framing/{framing}", LONG, framing=framing)
kind("framing/old-client", Page(LONG), ["GET 1.0", "GET 1.0 hit"])
kind("framing/interim", Page(LONG, framing="interim"), ["GET"])
kind("large/sized", Page(LONG, size=200_000), ["GET", "GET hit"])
kind("large/chunked", Page(LONG, size=100_000, framing="chunked"), ["GET", "GET hit"])

kind(AT_ONCE, Page(LONG, pause=0.4), ["GET", *["GET hit"] * 8])


# -- What is asked


def page_of(path):
    """The page at a path; none where it is of no kind."""
    found = KINDS.get("/".join(path.split("?")[0].split("/")[1:3]))
    return found and found.page


def request(method, path, version, lines):
    """The octets of a request. What isn't safe has a body, which is chunked where a field says so."""
    has_body, body = method in ("POST", "PUT"), f"what {method} sends\n".encode()
    is_chunked = "Transfer-Encoding: chunked" in lines
    sized = [f"Content-Length: {len(body)}"] if has_body and not is_chunked else []
    head = "".join(f"{line}\r\n" for line in [f"{method} {path} HTTP/{version}", *lines, *sized, ""]).encode()
    if not has_body:
        return head
    trailer = b"X-Sum: 1\r\n" if "Trailer: X-Sum" in lines else b""
    return head + (b"%x\r\n%s\r\n0\r\n%s\r\n" % (len(body), body, trailer) if is_chunked else body)


def read_ask(name, path, text, site):
    """An ask of a kind, by its line."""
    words, *lines = [part.strip() for part in text.split("|")]
    method, *words = words.split()
    behind = "".join(word for word in words if word not in ("hit", "1.0"))
    behind = f"/{behind}" if behind.isalpha() else behind
    if not any(line.startswith("Host:") for line in lines):
        lines.insert(0, f"Host: {site}")
    octets = request(method, path + behind, "1.0" if "1.0" in words else "1.1", lines)
    return Ask(name, "hit" in words, octets, method)


def is_unanswered(name):
    """Whether the origin gives no answer in this kind. Some caches ask less of an origin behind that."""
    page = KINDS[name].page
    return NOTHING in (page.status, page.later) or page.framing == "cut"


def asks_of(name, number, seed, site):
    """What is asked of a kind in a round."""
    texts = [*KINDS[name].rounds, [], []][number]
    return [read_ask(name, f"/{name}/{seed}", text, site) for text in texts]


def rounds_of(seed, site):
    """What is asked in each round, one behind another, and what at once behind the last. The order of the kinds is by
    the seed, but what has no answer stands last."""
    chance, names, rounds = random.Random(seed), [name for name in KINDS if name != AT_ONCE], []
    for number in range(3):
        chance.shuffle(names)
        asked = []
        for name in sorted(names, key=is_unanswered):
            asked += asks_of(name, number, seed, site)
        rounds.append(asked)
    return rounds, asks_of(AT_ONCE, 0, seed, site)
