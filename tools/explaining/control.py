"""Control messages: each record with learned or passed over and why, each EID with what is answered or asked for."""
from journal import OPEN, PROBE_OPEN, Asked, Learned
from messages import Request, message_of
from wire import Refused

from explaining.mappings import ACTIONS, UNTOLD, locator_text, mapping_lines
from explaining.requests import answer_of, wanting
from explaining.texts import address, counted, duration, family, placed, utc

MOST_LOCATORS, SHOWN = 32, 3


def message_in(packet):
    """The message of a packet, as `messages` reads it, or None where a rule refuses it."""
    try:
        return message_of(packet.octets[packet.at + 8:], packet.base + packet.at + 8)
    except Refused:
        return None


def record_text(record):
    """A record of a Map-Reply."""
    ttl = "left open" if record.ttl == UNTOLD else f"{record.ttl:,} min"
    version = f", Map-Version {record.version}" if record.version else ""
    locators = ", ".join(locator_text(one) + (" R" if one.reachable else " not R") for one in record.locators)
    return f"{placed(record.eid)}, TTL {ttl}{version}: " + (
        locators or f"no locators, ACT {record.action} ({ACTIONS[record.action]})")


def message_text(found):
    port, message, left = found
    word = "an Encapsulated Control Message with " * (port is not None)
    more = f", {counted(left, 'octet')} behind it" if left else ""
    if isinstance(message, Request):
        is_smr = message.solicit and not message.probe
        kind = "Map-Request" + " with P, a probe" * message.probe + " with S, an SMR" * is_smr
        return f"{word}{kind}, nonce {message.nonce:016x}, {counted(len(message.eids), 'EID')}{more}"
    kind = "Map-Reply" + " with P, to a probe" * message.probe
    return f"{word}{kind}, nonce {message.nonce:016x}, {counted(len(message.records), 'record')}{more}"


# Map-Replies.


def awaited_lines(play, records, moment):
    """The open requests for EIDs that records cover, which have another nonce."""
    return [f"its records cover {placed(entry.eid)}, for which the Map-Request of {play.maker(entry)} is open with nonce "
            f"{entry.nonce:016x}" for entry in play.journal.open_requests(moment).values()
            if any(record.eid.covers(entry.eid) for record in records)][:SHOWN]


def asked_lines(play, reply, moment):
    """The request that the nonce of a reply is of, or what became of it."""
    nonce, records = reply.nonce, reply.records
    request = play.journal.open_requests(moment).get(nonce)
    if request:
        return [f"it answers the Map-Request for {placed(request.eid)} of {play.maker(request)}, "
                f"{duration(moment - request.moment)} ago"]
    past = [entry for entry in play.journal.of(Asked) if entry.nonce == nonce]
    if not past:
        return ["no Map-Request of this router had its nonce: those of a real router belong into the settings' nonces",
                *awaited_lines(play, records, moment)]
    entry = past[-1]
    answer = answer_of(play, entry)
    text = f"the Map-Request with its nonce, for {placed(entry.eid)}, of {play.maker(entry)}, "
    return [text + (f"was answered by {play.maker(answer)}" if answer else f"was over at {utc(entry.moment + OPEN)}")]


def probe_lines(play, nonce, source, moment):
    """The probe that a nonce is of, or what became of it."""
    probes = [(entry, answered) for entry, answered in play.journal.probes() if entry.nonce == nonce]
    if not probes:
        return ["no probe of this router had its nonce"]
    entry, answered = probes[-1]
    lines = [f"the probe with its nonce is of {play.maker(entry)}, to {address(entry.address)}"]
    if answered:
        lines.append("it was answered before")
    elif moment - entry.moment >= PROBE_OPEN:
        lines.append(f"its answer counted until {utc(entry.moment + PROBE_OPEN)}")
    elif source != entry.address:
        lines.append(f"this answer comes from {address(source)}")
    return lines


def record_lines(scene, reply):
    """Each record: whether it is learned, or why it is passed over. The frame is taken before."""
    play, journal = scene.play, scene.play.journal
    new = journal[scene.taken.first:]
    kept = [entry.mapping for entry in new if type(entry) is Learned]
    asked = scene.asked.eid
    covering = [record.eid for record in reply.records if record.eid.covers(asked)]
    lines = []
    for record in reply.records:
        mapping = record._replace(locators=record.locators[:MOST_LOCATORS])
        if not any(eid.covers(record.eid) for eid in covering):
            why = f"passed over: it isn't within a record that covers {placed(asked)}"
        elif record.eid in play.site.static:
            why = "passed over: the settings have a mapping of its EID, which no Map-Reply replaces"
        elif kept and kept[0] == mapping:
            kept.pop(0)
            why = learned_text(record)
        else:
            limit = play.site.limit(record.eid.iid).mappings
            why = f"passed over: as many mappings of instance {record.eid.iid} as its limit allows, {limit:,}, are live"
        lines.append(f"{record_text(record)}: {why}")
    return lines


def learned_text(record):
    if record.ttl == 0:
        return "learned: its TTL of 0 takes the mapping of its EID away (RFC 9301, section 5.4)"
    return "learned" + f", its first {MOST_LOCATORS} locators" * (len(record.locators) > MOST_LOCATORS)


def reply_sections(scene, packet, port, reply):
    play, moment = scene.play, scene.moment
    if port is not None:
        return
    if reply.probe:
        yield "probe", probe_lines(play, reply.nonce, packet.source, moment)
        return
    yield "request", asked_lines(play, reply, moment)
    scene.asked = play.journal.open_requests(moment).get(reply.nonce)
    if scene.asked is None:
        yield "records", [f"{record_text(record)}: passed over with its message" for record in reply.records] or ["none"]
    elif not any(record.eid.covers(scene.asked.eid) for record in reply.records):
        yield "records", [f"{record_text(record)}: it doesn't cover {placed(scene.asked.eid)}"
                          for record in reply.records] or ["none"]
    else:
        scene.take()
        yield "records", record_lines(scene, reply)


# Map-Requests.


def home_lines(site, eids):
    """Each EID that is asked for, and the prefix of the site that covers it."""
    lines = []
    for eid in eids:
        home = site.home(eid)
        where = f"in the site's {placed(home)}" if home else "no EID prefix of the site covers it"
        lines.append(f"{placed(eid)}: {where}")
    return lines or ["none"]


def answer_lines(site, eids):
    """The prefixes that the site answers with."""
    homes = set(map(site.home, eids)) - {None}
    return [f"{placed(own)}, Map-Version {site.versions[own] or 'none'}, TTL {site.ttl:,} min"
            for own in site.databases if any(home.covers(own) for home in homes)]


def path_lines(scene, request, dest):
    """The reply addresses, and which one is taken."""
    path = scene.play.router.reply_path(request, dest)
    lines = [f"ITR-RLOC {address(to)}: " + (
        "the reply goes there" if path and to == path[1] else
        f"no own locator of {family(len(to))} is up" if not request.probe and scene.play.site.ours(len(to)) is None else
        f"the probe came to an address of {family(len(dest))}" if request.probe and len(to) != len(dest) else
        "another one before it is taken") for to in request.replies_to]
    return list(dict.fromkeys(lines))


def after_made(play, eid, moment, made):
    """Why an SMR that led to requests for some EIDs already leads to none for another one, or None where it does."""
    if any(other.covers(eid) for other in made):
        return "no further Map-Request is made: this SMR led to one that covers it"
    count = play.journal.open_in(moment, eid.iid) + sum(other.iid == eid.iid for other in made)
    limit = play.site.limit(eid.iid).requests
    if count >= limit:
        return (f"no Map-Request is made: with those of this SMR {counted(count, 'request')} of instance {eid.iid} are open, "
                f"and its limit is {limit:,}")
    return None


def solicit_sections(scene, request):
    """What an SMR names, and what is asked for again."""
    play, moment = scene.play, scene.moment
    lines, made = [], []
    for eid in (eid for eid in (request.source, *request.eids) if eid):
        entry = play.journal.in_force(moment, eid)
        if entry is None:
            lines.append(f"{placed(eid)}: no mapping that is in force covers it")
        elif entry.fixed:
            lines.append(f"{placed(eid)}: {mapping_lines(play, entry, moment)[0]}, which isn't asked for")
        else:
            asked = entry.mapping.eid
            why = wanting(play, asked, moment) or after_made(play, asked, moment, made)
            made += [] if why else [asked]
            lines.append(f"{placed(eid)}: {mapping_lines(play, entry, moment)[0]}; " + (why or "it is asked for again"))
    yield "named", lines or ["nothing"]


def request_sections(scene, packet, port, request):
    if port is not None:
        request = request._replace(probe=False)
    if request.solicit and not request.probe:
        yield from solicit_sections(scene, request)
        return
    yield "EIDs", home_lines(scene.play.site, request.eids)
    answers = answer_lines(scene.play.site, request.eids)
    if answers:
        yield "answer", answers
        yield "path", path_lines(scene, request, packet.dest)


def sections(scene, packet):
    """What a control message meets."""
    found = message_in(packet)
    if found is None:
        return
    yield "message", [message_text(found)]
    port, message, _ = found
    of_kind = request_sections if isinstance(message, Request) else reply_sections
    yield from of_kind(scene, packet, port, message)
