"""Points of abuse_proxy that tell how links end: by clients that leave, by crowds that stay silent, and by stops."""

import collections
import concurrent.futures
import contextlib
import hashlib
import random
import time

from clients import HALVES, KEPT, LIMIT, METHOD, OUTLIVES, STALE_HIT, Client, Trusting, Wrong
from clients import all_asking, answered, busy_clients, fill, got, got_one_of_all, request, text, want
from hostile_origin import HostileOrigin
from proxies import AT_ONCE, DRAIN, WAIT, askers, ends_of_forwards, is_recorded, seconds_until
from small_origin import Origin, pattern, reset

# -- Streams whose clients leave

ABANDONED = 5  # seconds behind which a forward that nobody waits for is given up, where none are said
STREAMS = "streams", "streams-at-length"

LatePaths = collections.namedtuple("LatePaths", "first second posted again")


def abandoned_streams(trial):
    many, few = trial.much((100, 20), (10, 5))
    with trial.part("all places at the origin"):
        streams_are_given_up(trial, many, 1, ABANDONED, *trial.much((), ("--origin-connections", many)))
    with trial.part("--abandoned, and two clients for each"):
        streams_are_given_up(trial, few, 2, 2, "--origin-connections", few, "--abandoned", 2)
    with trial.part("what isn't given up"):
        what_is_not_given_up(trial)


def streams_are_given_up(trial, count, clients, seconds, *words):
    """They take all places at the origin, each for so many clients, of which by turns one resets and one closes. Behind
    that there are places."""
    origin, most = HostileOrigin(), seconds + WAIT
    with trial.proxy(origin.address, *words, record=trial.room / f"streams-{seconds}") as proxy:
        with contextlib.ExitStack() as stack:
            paths = [f"/{STREAMS[which % 2]}/{which // 2}" for which in range(count)]
            waiting = all_asking(stack, proxy.port, paths * clients)
            seconds_until(lambda: len(origin.streaming) == count, LIMIT)
            want(f"{count} streams: {len(origin.streaming)}", len(origin.streaming) == count)
            for client in waiting[::2]:
                reset(client.link)
        took = seconds_until(lambda: not origin.streaming, most)
        left = len(origin.streaming)
        told, waited = answered(proxy.port, "/kept/on")
        trial.say(f"{count} streams whose {count * clients} clients left: {left} go on behind {took:.1f} s, of "
                  f"{seconds} s; then {told} in {waited:.2f} s")
        trial.want(f"all are given up within {most} s: {left} aren't", not left)
        trial.want(f"then a request is answered at once: {told} in {waited:.1f} s", told == 200 and waited < AT_ONCE)
        trial.say(proxy.stops_well())


def what_is_not_given_up(trial):
    """What another client waits for, a request that isn't safe, and a validation in the background. All take longer
    than what nobody waits for may."""
    late, words = trial.much((8000, ()), (3000, ("--abandoned", 1)))
    paths = LatePaths(*(f"/{path}/{late}" for path in ("late/first", "late/second", "late/posted", "late-again")))
    origin = Origin()
    with trial.proxy(origin.address, *words, record=trial.room / "late") as proxy, contextlib.ExitStack() as stack:
        for client, path in leave_others(stack, proxy.port, origin, paths):
            got_one_of_all(client.reply(), path)
        wanted = {f"GET {paths.first}": "r", f"GET {paths.second}": "r", f"POST {paths.posted}": "r",
                  f"GET {paths.again}": "rr"}
        seconds_until(lambda: ends_of_forwards(proxy.record) == wanted, WAIT)
        ends = ends_of_forwards(proxy.record)
        trial.say(f"{ends}, each {late / 1000:.0f} s late; {proxy.stops_well()}")
    trial.want(f"each forward has its response: {wanted}", ends == wanted)


def leave_others(stack, port, origin, paths):
    """Clients leave once the origin was asked, of two that wait for a path the one that asked first, or second. Answers
    the others with their paths."""
    with Client(port) as stale:
        fill(stale, [paths.again])
        time.sleep(OUTLIVES)
        got(stale.ask(paths.again), 200, STALE_HIT, text(paths.again))
    leads = all_asking(stack, port, [paths.first, paths.second])
    posts = stack.enter_context(Client(port))
    posts.send(request(paths.posted, method="POST", body=pattern(10_000)))
    seconds_until(lambda: all(origin.counts[path] for path in paths), LIMIT)
    joins = all_asking(stack, port, [paths.first, paths.second])
    time.sleep(0.3)
    for client in (leads[0], joins[1], posts):
        client.link.close()
    return (joins[0], paths.first), (leads[1], paths.second)


# -- Crowds that stay silent

IN_TIME = 1  # seconds within which others are answered
LATEST = 20  # seconds behind which a reply isn't awaited any more
BUSY = 5  # clients that came before the crowd and are in the midst of a request, and others that await a reply
ANEW = 10  # of those that were silent for longest, who ask anew
OPEN, CLOSED, RESET = "open", "closed", "reset"


def silent_crowds(trial):
    for name, asks in (("that say nothing", False), ("that asked once", True)):
        with trial.part(f"those {name}"):
            silent_crowd(trial, name, asks)


def silent_crowd(trial, name, asks):
    """More than there may be, of which those that have been silent for longest give way to the others."""
    count, first, honest, late = trial.much((1100, 200, 20, 10_000), (140, 60, 5, 4000))
    words = trial.much((), ("--max-connections", 128))
    with trial.proxy(Origin().address, *words, record=trial.room / f"silent-{asks}") as proxy:
        with contextlib.ExitStack() as stack:
            halves = busy_clients(stack, proxy.port, BUSY)
            awaiting = all_asking(stack, proxy.port, [f"/late/awaited-{which}/{late}" for which in range(BUSY)])
            crowd = silent_clients(stack, proxy.port, count, first, asks)
            came = [answered(proxy.port, "/kept/0", most=3) for _ in range(honest)]
            fates, told = [fate(client) for client in crowd], replies(halves, HALVES[1]) + replies(awaiting)
        others, worst = collections.Counter(status for status, _ in came), max(took for _, took in came)
        trial.say(f"{count} {name}: {spans(fates)}; others got {dict(others)} in {worst:.2f} s at most; those that are "
                  f"busy got {dict(told)}")
        trial.want(f"nobody is turned away, or reset: {spans(fates)}", set(fates) <= {OPEN, CLOSED})
        trial.want(f"others are answered within a second: {dict(others)}, {worst:.1f} s",
                   set(others) == {200} and worst <= IN_TIME)
        trial.want(f"the first {first} give way, and none behind them: {spans(fates)}",
                   CLOSED in fates and CLOSED not in fates[first:])
        trial.want("the first that asked anew stay", not asks or CLOSED not in fates[:ANEW])
        trial.want(f"those that are busy stay: {dict(told)}", set(told) == {"200"})
        trial.say(proxy.stops_well())


def silent_clients(stack, port, count, first, asks):
    """Of which the first are silent for longer than the others. Where each has asked, some of the first ask anew before
    the others come."""
    crowd = [silent_client(stack, port, which, asks) for which in range(first)]
    time.sleep(1.5)
    for client in crowd[:ANEW] if asks else []:
        asks_once(client, "anew")
    return crowd + [silent_client(stack, port, which, asks) for which in range(first, count)]


def silent_client(stack, port, which, asks):
    client = stack.enter_context(Client(port))
    client.link.settimeout(WAIT)
    if asks:
        asks_once(client, which)
    return client


def asks_once(client, which):
    """It's told which one isn't answered."""
    try:
        told = client.ask("/kept/0").status
    except (OSError, Wrong) as trouble:
        told = type(trouble).__name__
    want(f"client {which} of the crowd is answered: {told}", told == 200)


def fate(client):
    """What became of a client that awaits nothing: that, or the status that it got."""
    client.link.setblocking(False)
    try:
        came = client.link.recv(4096)
    except BlockingIOError:
        return OPEN
    except ConnectionError:
        return RESET
    return came[9:12].decode("latin-1") if came else CLOSED


def spans(fates):
    """How many came to what, and from which to which."""
    return ", ".join(f"{fates.count(one)} {one} ({fates.index(one)} to {len(fates) - 1 - fates[::-1].index(one)})"
                     for one in sorted(set(fates)))


# -- Stops of clients that keep their connections

SEEN = 1  # seconds within which a stop is seen, and told by all replies behind that


def stops_under_load(trial):
    """Of clients that never try again."""
    stopped = [stopped_under_load(trial, which) for which in range(trial.much(5, 1))]
    stopped = [it for it in stopped if it]
    if stopped:
        trial.say(f"{len(stopped)} stops: within {max(took for took, *_ in stopped):.2f} s; "
                  f"{sum(replies for _, replies, *_ in stopped)} replies, {sum(told for _, _, told, _ in stopped)} "
                  f"clients told that their connections close, {sum(lost for *_, lost in stopped)} requests lost")


def stopped_under_load(trial, which):
    """Answers how long it took, and how many replies came, clients were told, and requests were lost."""
    after, record = random.uniform(0.5, 2), trial.room / f"load-{which}"
    with trial.part(f"a stop behind {after:.3f} s"):
        with trial.proxy(Origin().address, record=record) as proxy:
            with askers(proxy, trial.much(50, 20), Trusting) as clients:
                time.sleep(after)
                stopped = time.monotonic()
                proxy.stops_well()
        lost = [it.lost for it in clients if it.lost]
        late = [it.open_at - stopped for it in clients if it.open_at and it.open_at > stopped + SEEN]
        early = [it for it in clients if it.told_at and it.told_at < stopped]
        trial.want(f"none of {len(clients)} clients loses a request: {len(lost)} do: {sorted(set(lost))[:2]}", not lost)
        trial.want(f"replies say that they close: {len(late)} don't, until {max(late, default=0):.1f} s", not late)
        trial.want(f"none says so before the stop: {len(early)} do", not early)
        trial.want(f"it ends in time: {proxy.took:.2f} s", proxy.took <= DRAIN + 1)
        is_recorded(record, sum((it.seen for it in clients), collections.Counter()))
        return proxy.took, sum(it.replies for it in clients), sum(bool(it.told_at) for it in clients), len(lost)


# -- Uploads, and others, at a stop

PIECES = 40
UPLOADED = pattern(PIECES << 10)
UPLOADED_TOLD = f"{len(UPLOADED)} {hashlib.sha256(UPLOADED).hexdigest()}".encode()
IDLE = 1.5  # seconds within which what says nothing is closed

Upload = collections.namedtuple("Upload", "told closes ended")


def uploads_at_a_stop(trial):
    with trial.part("uploads that have time"):
        uploads_that_have_time(trial)
    with trial.part("uploads that have none"):
        uploads_that_have_none(trial)
    with trial.part("those that aren't busy"):
        links_at_a_stop(trial)


def uploads(port, number, seconds):
    """What a client gets, and when, for what it sends piece by piece in so many seconds."""
    told = closes = None
    with contextlib.suppress(OSError, Wrong), Client(port) as client:
        client.send(request(f"/upload/{number}", f"Content-Length: {len(UPLOADED)}", method="PUT"))
        for which in range(PIECES):
            client.send(UPLOADED[which << 10 : (which + 1) << 10])
            client.listen(seconds / PIECES)
        reply = got(client.reply(), 200, METHOD)
        told, closes = reply.body, reply.closes() and client.is_cut_off()
    return Upload(told, closes, time.monotonic())


def stopped_among_uploads(trial, seconds, drain):
    """Clients are a second into what they send in so many seconds. Answers what they got, with the seconds from the
    stop on, and what the audit says."""
    count = trial.much(20, 5)
    with trial.proxy(Origin().address, "--drain-timeout", drain, record=trial.room / f"drain-{drain}") as proxy:
        with concurrent.futures.ThreadPoolExecutor(count) as pool:
            runs = [pool.submit(uploads, proxy.port, number, seconds) for number in range(count)]
            time.sleep(1)
            stopped = time.monotonic()
            verdict = proxy.stops_well(drain)
        trial.want(f"it ends in time: {proxy.took:.2f} s", proxy.took <= drain + 1)
    came = [run.result() for run in runs]
    return [it._replace(ended=it.ended - stopped) for it in came], verdict


def ended(came):
    return f"{min(it.ended for it in came):.1f} to {max(it.ended for it in came):.1f} s behind the stop"


def uploads_that_have_time(trial):
    came, verdict = stopped_among_uploads(trial, 4, DRAIN)
    whole, closed = sum(it.told == UPLOADED_TOLD for it in came), sum(it.closes is True for it in came)
    trial.say(f"{len(came)} uploads, with a drain of {DRAIN} s: {whole} whole, {closed} told that their connections "
              f"close, all ended {ended(came)}; {verdict}")
    trial.want(f"all come to the origin, and are answered: {whole} of {len(came)}", whole == len(came))
    trial.want(f"all are told that their connections close: {closed} of {len(came)}", closed == len(came))


def uploads_that_have_none(trial):
    drain = 2
    came, verdict = stopped_among_uploads(trial, 8, drain)
    trial.say(f"{len(came)} uploads, with a drain of {drain} s: all ended {ended(came)}; {verdict}")
    trial.want("none is answered", not any(it.told for it in came))
    trial.want(f"they are cut at its end: {ended(came)}", all(drain - 0.5 <= it.ended <= drain + 1 for it in came))


def links_at_a_stop(trial):
    """Clients that have only connected, and others that have been answered, ask half a second behind the stop, or say
    nothing; and some await a reply."""
    count = trial.much(10, 3)
    with trial.proxy(Origin().address, record=trial.room / "links") as proxy, contextlib.ExitStack() as stack:
        once = all_asking(stack, proxy.port, ["/kept/0"] * count * 2)
        want("replies", set(replies(once)) == {"200"})
        awaiting = all_asking(stack, proxy.port, [f"/late/{which}/1500" for which in range(count)])
        time.sleep(0.3)
        new = [stack.enter_context(Client(proxy.port)) for _ in range(count)]
        proxy.stop()
        stopped = time.monotonic()
        time.sleep(0.5)
        told = {"have only connected, and ask then": replies(new, KEPT),
                "have been answered, and ask again": replies(once[:count], KEPT)}
        idle = sum(is_gone_by(client, stopped + IDLE + AT_ONCE) for client in once[count:])
        took = time.monotonic() - stopped
        told["await a reply"] = replies(awaiting)
        for kind, came in told.items():
            trial.say(f"those that {kind}: {dict(came)}")
            trial.want(f"those that {kind}, get 200 and are closed: {dict(came)}", set(came) == {f"200 {CLOSED}"})
        trial.say(f"{idle} of {count} that say nothing are gone {took:.1f} s behind the stop; {proxy.ends_well()}")
    trial.want(f"those that say nothing are gone within some {IDLE} s: {idle} of {count}", idle == count)


def replies(clients, octets=b""):
    """How many clients get which status once they have sent these octets, and that they are closed where they are told
    so; or get nothing, for which reason."""
    for client in clients if octets else []:
        with contextlib.suppress(ConnectionError):
            client.send(octets)
    return collections.Counter(map(told_at_last, clients))


def told_at_last(client):
    client.link.settimeout(LATEST)
    try:
        reply = client.reply()
        return f"{reply.status} {CLOSED}" if reply.closes() and client.is_cut_off() else str(reply.status)
    except (OSError, Wrong) as trouble:
        return type(trouble).__name__


def is_gone_by(client, moment):
    client.link.settimeout(max(0.1, moment - time.monotonic()))
    with contextlib.suppress(TimeoutError):
        return client.is_cut_off()
    return False
