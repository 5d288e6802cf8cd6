"""The map-cache as one reads it on a router, as lines or as JSON."""
import json
from collections import defaultdict

import settings as rules
from journal import OPEN, ends
from messages import Eid
from wire import number

from explaining.mappings import ACTIONS, gone_text, lasting, locator_text, origin, states
from explaining.packets import TAG
from explaining.requests import open_text
from explaining.texts import Differs, Fault, address, counted, duration, prefix, seconds, utc

VERDICT = "encapsulated "


class Counts:
    """How many packets and octets went to each locator of each EID's mapping."""

    def __init__(self):
        self.sums, self.texts = defaultdict(lambda: [0, 0]), {}

    def see(self, play, step):
        verdict = step.line.verdict
        if verdict.startswith(VERDICT):
            iid, dest, size = leaving(play.site, step.frame)
            width = 8 * len(dest)
            entry = play.journal.in_force(step.frame.moment, (iid, width, int.from_bytes(dest, "big"), width))
            to = self.locator(entry, verdict.split(" ", 3)[2])
            if to is None:
                raise Differs(f"proved {step.line.text}\nplain  no mapping in force has that locator")
            sums = self.sums[entry.mapping.eid, to]
            sums[0] += 1
            sums[1] += size + (36 if len(to) == 4 else 56)

    def of(self, eid, address):
        """How many packets and octets went to a locator of an EID's mapping."""
        return self.sums.get((eid, address), (0, 0))

    def locator(self, entry, text):
        """The address of a mapping's locator that a line names, or None."""
        octets = self.texts.get(text)
        if octets is None:
            octets = self.texts[text] = octets_in(text)
        return octets if entry and any(one.address == octets for one in entry.mapping.locators) else None


def octets_in(text):
    """The octets of an address in a line, where IPv6 has all its digits."""
    return bytes.fromhex(text.replace(":", "")) if ":" in text else bytes(map(int, text.split(".")))


def leaving(site, frame):
    """The instance, the destination and the size of a packet that went into a tunnel: so it is well-formed."""
    octets, vlan, at = frame.octets, 0, 0
    if frame.link == 1:
        at = 14
        if number(octets, 12, 2) == TAG:
            vlan, at = number(octets, 14, 2) & 0xFFF, 18
    if octets[at] >> 4 == 4:
        return site.attachments[vlan], octets[at + 16:at + 20], number(octets, at + 2, 2)
    return site.attachments[vlan], octets[at + 24:at + 40], 40 + number(octets, at + 4, 2)


# What is picked.


def picked(words):
    """Whether an EID is one that the words pick."""
    if words.prefix is None:
        return lambda eid: words.iid in (None, eid.iid)
    found = rules.prefix(words.prefix) if "/" in words.prefix else rules.address(words.prefix)
    if found is None:
        raise Fault(f"{words.prefix} is neither an address as 192.0.2.1 or 2001:db8::1, nor a prefix as 10.0.0.0/8")
    octets, length = found if "/" in words.prefix else (found, 8 * len(found))

    def is_picked(eid):
        wanted = Eid.of(eid.iid, octets, length)
        return words.iid in (None, eid.iid) and (eid.covers(wanted) or wanted.covers(eid))
    return is_picked


def picking(words):
    """By which words mappings and requests are picked."""
    by = [word for word in (words.prefix, None if words.iid is None else f"--iid {words.iid}") if word is not None]
    return f", picked by {' '.join(by)}" if by else ""


# Facts, as JSON has them.


def locator_fact(counts, eid, state):
    locator = state.locator
    packets, octets = counts.of(eid, locator.address)
    return {
        "address": address(locator.address), "priority": locator.priority, "weight": locator.weight,
        "usable": not state.why_not, "why_not": state.why_not, "shares": state.part, "of": state.whole,
        "packets": packets, "octets": octets}


def mapping_fact(play, counts, entry, moment):
    mapping, found = entry.mapping, states(play, entry, moment)
    index = play.index_of(entry)
    return {
        "iid": mapping.eid.iid, "eid": prefix(mapping.eid), "entry": index + 1, "static": entry.fixed,
        "since": None if entry.fixed else seconds(entry.moment), "by": play.made_by(index),
        "ends_in": None if entry.fixed else seconds(ends(entry) - moment),
        "version": mapping.version, "action": None if mapping.locators else mapping.action,
        "locators": [locator_fact(counts, mapping.eid, state) for state in found]}


def request_fact(play, entry):
    return {
        "iid": entry.eid.iid, "eid": prefix(entry.eid), "since": seconds(entry.moment), "by": play.maker(entry),
        "nonce": f"{entry.nonce:016x}", "sent": 1 + play.journal.times()[entry.nonce]}


def gone_of(journal, moment, is_picked):
    """What was learned last of EIDs whose mapping isn't there any more."""
    live = journal.live(moment)
    return [entry for eid, entry in sorted(journal.learned().items()) if eid not in live and is_picked(eid)]


def unanswered(journal, moment, is_picked):
    """By EID the Map-Requests that were over without an answer."""
    found = {}
    for entry in journal.unanswered().values():
        if moment - entry.moment >= OPEN and is_picked(entry.eid):
            found.setdefault(entry.eid, []).append(entry)
    return found


def unanswered_fact(play, eid, entries):
    return {"iid": eid.iid, "eid": prefix(eid), "times": len(entries), "last": play.maker(entries[-1])}


# Lines.


def state_text(counts, eid, state):
    packets, octets = counts.of(eid, state.locator.address)
    sent = f"{counted(packets, 'packet')}, {counted(octets, 'octet')} sent"
    text = "up, " + state.share() if not state.why_not else "can't be used, " + "; ".join(state.why_not)
    return f"    {locator_text(state.locator)}: {sent}; {text}"


def mapping_lines(play, counts, entry, moment):
    mapping = entry.mapping
    since = "" if entry.fixed else f", up for {duration(moment - entry.moment)}"
    version = f", Map-Version {mapping.version}" if mapping.version else ""
    lines = [f"  {prefix(mapping.eid)}: {origin(play, entry)} (entry {play.index_of(entry) + 1}){since}, "
             f"{lasting(entry, moment)}{version}"]
    if not mapping.locators:
        lines.append(f"    no locators, ACT {mapping.action} ({ACTIONS[mapping.action]})")
    return lines + [state_text(counts, mapping.eid, state) for state in states(play, entry, moment)]


def unanswered_text(play, eid, entries):
    return (f"  {address(play.site.resolver)} was asked for {prefix(eid)} {counted(len(entries), 'time')} without an answer, "
            f"the last time by {play.maker(entries[-1])}")


def instance_lines(play, counts, iid, entries, moment):
    """The mappings of an instance, behind how many it may learn."""
    limit, journal = play.site.limit(iid), play.journal
    learned, opened = journal.learned_in(moment, iid), journal.open_in(moment, iid)
    lines = ["", f"instance {iid}: {learned:,} learned of at most {limit.mappings:,}; {counted(opened, 'request')} open "
             f"of at most {limit.requests:,}"]
    for entry in entries:
        lines += mapping_lines(play, counts, entry, moment)
    return lines


def lines(words, counts, play, frame, moment):
    """The map-cache behind a frame, at a moment."""
    is_picked, journal = picked(words), play.journal
    over = unanswered(journal, moment, is_picked)
    live = [entry for eid, entry in sorted(journal.live(moment).items()) if is_picked(eid)]
    gone = gone_of(journal, moment, is_picked) if words.prefix else []
    requests = [entry for entry in journal.open_requests(moment).values() if is_picked(entry.eid)]
    if words.json:
        return [json.dumps({
            "frame": frame.number, "moment": seconds(moment), "utc": utc(moment), "entries": len(journal),
            "mappings": [mapping_fact(play, counts, entry, moment) for entry in live],
            "requests": [request_fact(play, entry) for entry in requests],
            "unanswered": [unanswered_fact(play, eid, entries) for eid, entries in over.items()]}, indent=1)]
    told = [f"the map-cache behind frame {frame.number}, at {utc(moment)} ({seconds(moment)} s), n={len(journal)}: "
            f"{counted(len(live), 'mapping')}, {counted(len(requests), 'open request')}" + picking(words)]
    eids = [*(one.mapping.eid for one in live + gone), *(one.eid for one in requests), *over]
    for iid in sorted({eid.iid for eid in eids}):
        told += instance_lines(play, counts, iid, [one for one in live if one.mapping.eid.iid == iid], moment)
        told += [f"  {gone_text(play, one, moment)}" for one in gone if one.mapping.eid.iid == iid]
        told += [f"  {open_text(play, one, moment)}" for one in requests if one.eid.iid == iid]
        told += [unanswered_text(play, eid, entries) for eid, entries in over.items() if eid.iid == iid]
    return told
