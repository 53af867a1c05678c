"""What the RFCs ask of a wrong reply, and what is only hcache's own stricter rule, case by case: what tools/check_facts
holds against the sections that an explanation names as broken. Written from RFC 9110, 9111, 9211 and 5861 alone.

A demand is a set of what may be named: sections as `9111 4.1`, or OWN for that no RFC is broken. It has both where the
RFCs leave that open."""

import copy
import re

import walks
from walks import (AGE, BODY, FIELDS, HEURISTIC, INVALIDATED, LIFETIME, OF_CONTENT, REPEATED, TTL, USE, VARY,
                   directives, joined, members, tag_of, values, weak)

OWN, WRONG_MARK = "no RFC", {"9211 2.1"}
STORING = {"request_no_store": "9111 5.2.1.5", "authorization": "9111 3.5", "no_store": "9111 5.2.2.5",
           "private": "9111 5.2.2.7", "uninvited": "9111 3"}
STALE = {"no-cache": "9111 5.2.2.4", "must-revalidate": "9111 5.2.2.2", "proxy-revalidate": "9111 5.2.2.8",
         "s-maxage": "9111 5.2.2.10"}
SINGLE = {"date", "expires", "last-modified", "etag", "set-cookie"}  # what is no list


def cited(text):
    """What the sections of an explanation say."""
    found = {OWN} if text.startswith("no RFC") else set()
    for rfc, sections in re.findall(r"RFC (\d+) sections? ((?:\d+(?:\.\d+)*(?:, | and )?)+)", "" if found else text):
        found |= {f"{rfc} {section}" for section in re.findall(r"\d+(?:\.\d+)*", sections)}
    return found


def meaning(name, value):
    """A value without what makes no difference in a list: white space, and of what is negotiated case and order."""
    found = [re.sub(r"[ \t]*([;=])[ \t]*", r"\1", member) for member in members(value)]
    return sorted(member.lower() for member in found) if name in walks.NEGOTIATED else found


def means_the_same(name, one, other):
    is_there = one is not None and other is not None and name not in SINGLE
    return is_there and meaning(name, one) == meaning(name, other)


# -- 304s


def looser(record, state):
    """Whether a 304 is about a response by RFC 9111 sections 4.3.3 and 4.3.4, though not by hcache's rules: yes, no, or
    none where that is open."""
    stands, told, due = walks.against(record, state), tag_of(record.fields), tag_of(state.fields)
    if stands <= {"private", "no_store"}:
        return True  # It validates, and may not be stored itself.
    is_about = stands <= {"private", "no_store", "method", "forward_no_store", "vary"}
    is_weakly = "earlier" not in stands and told and due and weak(told) == weak(due)
    return None if is_about or is_weakly else False


def freshened(record, state):
    """A response as a 304 leaves it."""
    made = copy.copy(state)
    made.freshen(record)
    return made


def validated(reply, state, after, demand):
    """What is asked where a 304 after that position may have validated the response by the RFCs. If the reply isn't what
    that leaves, the response may have been given without it as well."""
    found = set()
    for record, before in state.not_about:
        made, is_about = freshened(record, before), looser(record, before)
        if record.position > after and is_about is not False:
            found.add(is_about and reply.has_content(made) and not reply.gaps(made))
    return {OWN} if True in found else demand | {OWN} if found else demand


def usable_by(reply, state, demand):
    """What is asked of what may not be used, where a 304 may have validated it by the RFCs, be it after the request, or before
    it, so that it is usable still."""
    for record, before in state.not_about:
        is_before = record.position <= reply.since and looser(record, before) is not False
        if is_before and reply.is_usable(freshened(record, before)):
            demand = demand | {OWN}
    return validated(reply, state, reply.since, demand)


# -- What may be stored


def leaves_out(response, name, told):
    """Whether a directive names fields, and those that the response has are left out (RFC 9111 sections 5.2.2.4 and
    5.2.2.7)."""
    said = directives(response.fields).get(name)
    names = [member.lower() for member in members(said or "")]
    return bool(names) and not any(values(response.fields, each) and values(told, each) for each in names)


def storing(reply, response):
    """What is asked by what forbids to store a response (RFC 9111 section 3)."""
    forbidden = walks.forbids(response)
    if not leaves_out(response, "private", reply.record.fields):
        return storing_but(reply, response, forbidden)
    found = storing_but(reply, response, forbidden - {"private"})
    return found if reply.is_given(response) else found | {STORING["private"]}


def storing_but(reply, response, forbidden):
    """The same by that of it alone."""
    method = response.of.method
    found = {STORING[word] for word in forbidden if word in STORING}
    if response.status == 206 and reply.record.status != 206:
        found |= {"9111 3.3"}  # Parts may be stored, and a part isn't given as the whole.
    if found or "method" not in forbidden or response.status == 304 or method == "HEAD" and reply.is_head:
        return found or {OWN}  # Which statuses it understands is a cache's affair.
    if method == "HEAD":
        return {"9111 4", "9110 9.3.2"}
    is_stated = directives(response.fields).keys() & {"s-maxage", "max-age"} or values(response.fields, "expires")
    is_cacheable = is_stated and values(response.fields, "content-location")
    never = method in ("PUT", "DELETE", "CONNECT", "OPTIONS", "TRACE") or method == "POST" and not is_cacheable
    return {"9110 9.3", "9110 9.3.3", "9110 9.3.4", "9110 9.3.5", "9110 9.3.7", "9110 9.3.8"} if never else {OWN}


def no_response(reply, _):
    """What is asked where nothing of the target may be stored: by the latest response that is given, or the latest."""
    unstored = [end for end in reply.ends if end.kind == "r" and walks.forbids(end)]
    given = [end for end in unstored if reply.is_given(end)]
    if reply.request.method not in ("GET", "HEAD"):
        return {"9111 4", "9110 9.3.3", "9110 9.3.7", "9110 9.3.8"}
    # What isn't recorded may be stored from before.
    return storing(reply, (given or unstored)[-1]) if unstored else {OWN}


# -- What may be used


def selecting(reply, state):
    """What is asked where Vary doesn't select the request (RFC 9111 section 4.1)."""
    asked = reply.request.fields
    names = [member.lower() for member in walks.unmet(state, asked, reply.settings.normalized)]
    if all(means_the_same(name, joined(state.asked, name), joined(asked, name)) for name in names):
        return {OWN}
    behind = [each for each in state.not_about if each[0].position > reply.since]
    if any(walks.against(*each) == {"vary"} for each in behind):
        return {OWN}  # What a 304 about it permits is open.
    if "*" not in names and all(means_the_same(name, joined(state.asked, name), joined(asked, name))
                                for name in names if re.fullmatch(walks.TOKEN, name)):
        return {OWN}  # What is no name names no field.
    is_open = reply.is_validated(state) or any(looser(*each) is not False for each in behind)
    return {OWN, "9111 4.1"} if is_open else {"9111 4.1"}


def invalidated(reply, state):
    return validated(reply, state, state.invalidated_by[-1].position, {"9111 4.4"})


def no_cache(reply, state):
    """What is asked of what says no-cache, but is fresh."""
    if not leaves_out(state.response, "no-cache", reply.record.fields):
        return {STALE["no-cache"]}
    return {OWN} if reply.is_given(state.response) else {OWN, STALE["no-cache"]}


def lifetime(reply, state):
    """What is asked where no lifetime is stated (RFC 9111 section 4.2.2)."""
    said = directives(state.fields)
    demand = no_cache(reply, state) if "no-cache" in said else {OWN}
    may_be_guessed = state.status in HEURISTIC or "public" in said
    return usable_by(reply, state, demand if may_be_guessed else demand | {OWN, "9111 4.2.2", "9111 4.2.4"})


def failed_validation(reply):
    """Whether a validation was answered by a 5xx (RFC 9111 section 4.3.3): yes, no, or none where that isn't known."""
    errors = [end for end in reply.window if end.status >= 500 and reply.may_be_for(end)]
    asked = [joined(end.of.fields, "if-none-match") or joined(end.of.fields, "if-modified-since") for end in errors
             if end.of.method in ("GET", "HEAD")]
    return True if any(asked) and reply.recording.format == 2 else None if asked else False


def using(reply, state):
    """What is asked where a response may not be used (RFC 9111 sections 4.2.4 and 5.2.2). What says no-cache of fields that
    are left out is as what doesn't, once it is stale."""
    said, by_age = directives(state.fields), state.age(reply.moment, by_age_alone=True)
    demand = {section for name, section in STALE.items() if name in said} | {"9111 4.2.4", "9111 5.3", "9111 4"}
    failed, is_fresh = failed_validation(reply), reply.is_fresh(state)
    if "no-cache" in said and leaves_out(state.response, "no-cache", reply.record.fields) and not is_fresh:
        said.pop("no-cache")
    if "no-cache" in said:
        demand = no_cache(reply, state) if is_fresh else demand
    elif state.lifetime() + reply.settings.slack > by_age:
        # The Age may be believed, whatever the Date (section 4.2.3).
        demand = {OWN} if state.age_value else demand | {OWN}
    elif any(isinstance(walks.seconds(state.fields, name), str) for name in ("s-maxage", "max-age")):
        demand = demand | {OWN}
    elif not said.keys() & set(STALE) and failed is not False:
        demand = {OWN} if failed else demand | {OWN}
    return usable_by(reply, state, demand)


# -- What a reply has


def content(reply, state):
    """What is asked of the status and the body."""
    record, asked = reply.record, reply.request.fields
    if record.status == 304 and not record.body:
        found = {"9111 4.3.2", "9110 13.1.2", "9110 13.1.3", "9110 13.2.1", "9110 13.2.2", "9110 15.4.5"}
        since = walks.date_of(joined(asked, "if-modified-since") or "")
        by_date = since is not None and not values(state.fields, "last-modified") and state.date <= since
        by_tag = values(asked, "if-none-match") and 200 < state.status < 300
        return found | {OWN} if by_tag or by_date else found
    if reply.is_part(state.status, state.body):
        return {OWN}
    if record.status in (206, 416):
        return {"9110 14.2", "9110 15.3.7", "9110 15.5.17", "9111 4", "9110 7.7"}
    if record.status == 203 and state.status == 200 and "no-transform" not in directives(state.fields):
        return {OWN}  # A proxy may transform a body, and says so by a 203 (RFC 9110 sections 7.7 and 15.3.4).
    is_for_origins = values(asked, "if-match") or values(asked, "if-unmodified-since")
    return {"9111 4.3.2"} if record.status == 412 and is_for_origins else {"9111 4", "9110 7.7"}


def by_head(reply, state):
    """Whether the reply differs by what a 200 to HEAD says that is about the response (RFC 9111 section 4.3.5): yes, no,
    or none where that is open."""
    told, names, found = reply.record.fields, reply.gaps(state), set()
    for end in reply.ends:
        due = {name: values(state.fields, name) for name in ("etag", "last-modified")}
        is_about = all(values(end.fields, name) in ([], each) for name, each in due.items())
        if end.of.method == "HEAD" and end.status == 200 and end.position > state.settled and is_about:
            made = walks.replaced(state.fields, walks.stored_fields(end.fields, end.moment)[0])
            is_long = values(end.fields, "content-length") in ([], [str(len(state.body))])
            if all(values(told, name) == values(made, name) for name in names):
                # Vary may be normalized; and of another length the line itself says that it tells otherwise.
                found.add(None if walks.unmet(state, end.of.fields) or not is_long else True)
    return True if True in found else None if found else False


def of_field(reply, state, name):
    """What is asked of one field that differs."""
    due, told, is_304 = values(state.fields, name), values(reply.record.fields, name), reply.record.status == 304
    said, latest = directives(state.fields), state.validator or state.response
    if not due:
        return {"9110 7.7", "9110 15.4.5"} if name in OF_CONTENT or name == "set-cookie" else {OWN}
    if told and means_the_same(name, ", ".join(told), ", ".join(due)):
        return {OWN}
    if not told and name in map(str.lower, members(f"{said.get('private')},{said.get('no-cache')}")):
        return {OWN}
    found = {"9110 15.4.5"} if is_304 and (told or name in REPEATED) else set()
    found |= {"9111 4.3.4", "9111 3.2"} if state.validator and values(latest.fields, name) else set()
    if name == "date" and told and (values(latest.fields, "date") or state.validator) and walks.date_of(
            joined(latest.fields, "date") or "") is None:
        return {OWN}  # What a cache makes of it is its affair.
    if name == "date" and not values(latest.fields, "date"):
        return found | {"9110 6.6.1", "9110 7.7" if told else "9111 3.1"}
    return found or ({"9110 7.7", "9111 3.1"} if told else {"9111 3.1"})


def fields(reply, state):
    """What is asked of the fields that differ: that of any, and that no RFC is broken only where none is."""
    found = set().union(*(of_field(reply, state, name) for name in reply.gaps(state)))
    is_by_head = by_head(reply, state)
    demand = {OWN} if is_by_head else (found - {OWN} or {OWN}) | ({OWN} if is_by_head is None else set())
    return demand if validated(reply, state, state.settled, demand) == demand else demand | {OWN}


def age(reply, state):
    """What is asked of the Age (RFC 9111 sections 4, 4.2.3 and 5.1)."""
    told, settings = values(reply.record.fields, "age"), reply.settings
    if not told and reply.is_validated(state):
        # It is a MUST for what is used without validation.
        is_own = reply.recording.format == 2 and state.validator.of.cause == reply.record.number
        return {OWN, "9211 2.1"} if is_own else {OWN, "9211 2.1", "9111 4", "9111 5.1"}
    found = walks.number(told[0]) if len(told) == 1 else None
    if found is None:
        return {"9111 5.1"} if told else {"9111 4"}
    demand = {"9111 4", "9111 4.2", "9111 4.2.3", "9111 5.1"}
    if abs(found - state.age(reply.moment, by_age_alone=True)) <= max(settings.slack, settings.age_slack):
        return {OWN} if state.age_value else demand | {OWN}
    return demand if validated(reply, state, state.settled, demand) == demand else demand | {OWN}


def ttl(reply, state):
    """What is asked of the seconds of a mark (RFC 9211 section 2.4), which count a lifetime that the cache itself gives."""
    said = [walks.seconds(state.fields, name) for name in ("s-maxage", "max-age")]
    if not state.is_explicit() or isinstance(next((each for each in said if each is not None), None), str):
        return {OWN}
    return {"9211 2.4"} | ({OWN} if state.date < state.response_time or state.not_about else set())


BY_RULE = {1: no_response, VARY: selecting, INVALIDATED: invalidated, LIFETIME: lifetime, USE: using, BODY: content,
           FIELDS: fields, AGE: age, TTL: ttl}


def by_rule(reply, state):
    """What is asked by the first rule that a stored response breaks."""
    return BY_RULE[reply.breaks(state)](reply, state)


# -- What is asked of a reply


def of_hit(reply, demand, reason):
    """What is asked of a hit. One that carries an answer of its own window, and nothing that was stored before, isn't
    one."""
    if not reply.carried(ranges=False) or reply.is_inferred:
        return demand
    is_stored = any(reply.is_given(end) for end in reply.ends if end.position < reply.since)
    is_alone = reply.recording.format == 2 or reply.is_alone()
    is_certain = is_alone and not is_stored and reason != TTL and reply.record.status != 304
    return WRONG_MARK if is_certain else demand | WRONG_MARK


def of_forwarded(reply, state):
    """What is asked of what went forward: where it gives what is stored, or was validated, what a hit would break."""
    demand = {"9211 2.2", "9110 7.7", "9111 4"}
    parts = [end for end in reply.window if end.kind == "r" and end.of.method == "GET" and reply.is_part(end.status, end.body)]
    if any(reply.may_be_for(end) for end in parts):
        return {OWN}
    if reply.record.status >= 500 or reply.record.status == 416 or parts:
        demand |= {OWN, "9211 2"}  # It may be one that the cache makes itself.
    if state is None or not reply.breaks(state) or not (reply.is_given(state.response) or reply.is_validated(state)):
        return demand
    found, went = by_rule(reply, state), any(reply.may_be_for(end) for end in reply.window)
    return found if found == {OWN} and went else found | demand


def of_collapsed(reply, state):
    """What is asked of what was collapsed. What waits may be answered by what is stored then (RFC 9211 section 2.6)."""
    before = [each for each in reply.states if each.position < reply.since]
    if any(not reply.breaks(each) for each in before):
        return {OWN}  # It may be given to any request (RFC 9111 section 4).
    was_stored = any(reply.is_validated(each) for each in before)
    found = by_rule(reply, state) if state is not None and reply.breaks(state) else set()
    return {"9211 2.6"} | found | ({OWN} if was_stored else set())


def demanded(reply, state):
    """What may be named as broken by a wrong reply, of which that stored response is told, if one is."""
    reason = reply.reason()
    if reason < 10:
        return of_hit(reply, by_rule(reply, state) if state and reason > 1 else no_response(reply, state), reason)
    if reason in (11, 12):
        return {OWN} if reason == 11 else {"9211 2.1", "9211 2.2"}
    return of_forwarded(reply, state) if reason == 10 else of_collapsed(reply, state)
