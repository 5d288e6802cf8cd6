#!/usr/bin/env python3
"""Counts what the captures that compare.py makes reach in the plain router: verdicts, entries, packets; faults of files;
large packets and their halves.

usage: counts.py [ROUNDS [SEED]]
It ends with status 1 where one of the kinds that are to come doesn't.
"""
import collections
import os
import random
import re
import sys
import tempfile

import settings as rules
from captures import CaptureFault, frames_of
from captures_ng import SIMPLE, Reader
from compare import SPOILED, capture, frames_before, large_frames, some_frames
from journal import SECOND, Probed, Solicited
from lisp import ECHO, NONCE, VERSIONS
from makers import settings
from makers_ng import spoiled, written
from router import Router
from sites import Site
from splitting import halves, leaves, options_of, split_size
from wire import Packet, Refused, link_payload, number


NOTICES = "Ask", "Refresh", "ToldBits", "WantedEcho", "HeardEcho", "HeardData", "Solicit", "EchoDue"
ENTRIES = ("Learned", "Asked", "Retried", "Answered", "Probed", "ProbeAnswered", "Bits", "EchoStarted", "EchoHeard",
           "DataFrom", "EchoWanted", "Solicited", "Changed")
# But for that of a file of too many blocks or frames.
FAULTS = ("bad-interface", "bad-length", "bad-link-type", "bad-magic", "bad-moment", "bad-option", "bad-version",
          "cut-block", "old-packet", "span-too-long", "too-long", "too-many-interfaces")
TO_COME = [
    *(f"notice {name} kept" for name in NOTICES), *(f"notice {name} without effect" for name in NOTICES[:-1]),
    *(f"entry {name}" for name in ENTRIES), "verdict drop 6 dest-version-newer", "verdict drop 7 source-version-older",
    "packet into a tunnel", "packet into a tunnel with versions", "packet into a tunnel that asks for an echo",
    "packet into a tunnel with an echo", "packet for a mapping with a deaf locator", "request",
    "request for a solicitation", "request to refresh a mapping", "solicitation", "probe", "reply", "reply to a probe",
    *(f"pcapng fault {word}" for word in FAULTS), "pcapng file of some frames without a fault", "pcapng simple packet",
    "pcapng frame tagged by its interface", "pcapng big-endian section",
    *(f"halves of {kind}" for kind in (
        "a packet", "a packet without options", "a packet with options, which stay", "a packet with options, which go",
        "a packet with options, of which some stay", "a packet with options behind their end", "a fragment",
        "a fragment with more behind it", "a packet with the reserved flag", "a packet at the last offset",
        "a packet with octets behind it", "a packet in a VLAN", "a packet that fits over IPv4 alone", "the largest packet")),
    *(f"no halves of a large packet {why}" for why in (
        "with DF", "whose options are at fault", "past the last offset", "that doesn't leave the site", "of IPv6")),
    "half encapsulated", "half that is too large", "half that is a miss", "half natively",
    *(f"change {kind}" for kind in (
        "beside another of its second", "from before the first frame", "to what already was", "that tells somebody",
        "that tells nobody", "with a probe in its second")),
    "second in which a request is held back", "miss that isn't asked for, as the resolver isn't reached",
    *(f"{kind} at the {limit} of its instance" for limit in ("limit", "share")
      for kind in ("request that isn't made", "record that is passed over", "record that replaces a mapping")),
    "record that takes a mapping away at the limit of its instance", "request that isn't made at a limit of 1024",
    "packet delivered in an instance that isn't attached", "settings whose limits are too many in all",
    *(f"behind a change: verdict {word}" for word in (
        "encapsulated", "drop 6 dest-version-newer", "drop 19 no-locator", "drop 24 no-reply-path",
        "control request answered=1", "control probe-reply"))]


def verdict_kind(verdict):
    """A verdict's words, without addresses and places, and with 'many' for a number above 1."""
    words = verdict.split()
    if words[0] in ("encapsulated", "delivered"):
        return words[0]
    if words[:2] == ["drop", "1"]:
        return " ".join(words[:4] + words[5:])
    return re.sub(r"=(\d{2,}|[2-9])", "=many", verdict)


def is_elsewhere(site, verdict):
    """Whether a packet is delivered in an instance that isn't attached."""
    words = verdict.split()
    return words[0] == "delivered" and int(words[1]) not in site.limits


def tunnel_kind(header):
    """What is told in a header of the router's own."""
    if header[0] & NONCE:
        return "packet into a tunnel that asks for an echo" if header[0] & ECHO else "packet into a tunnel with an echo"
    return "packet into a tunnel with versions" if header[0] & VERSIONS else "packet into a tunnel"


def request_kind(octets):
    """What asks for a mapping, by its flag and its Source EID."""
    if octets[1] & 0x40:
        return "request for a solicitation"
    return "request" if number(octets, 12, 2) else "request to refresh a mapping"


def packet_kinds(verdict, packets):
    """The kinds of what is sent for a frame: the packet of its verdict, and what is noticed or answered."""
    is_plain = verdict.split()[0] in ("delivered", "native")
    return ["packet out of a tunnel, or native"] * is_plain + [packet_kind(packet) for packet in packets[is_plain:]]


def packet_kind(packet):
    """The kind of a packet that the router makes."""
    at = 40 if packet[0] >> 4 == 6 else 20
    ports = number(packet, at, 2), number(packet, at + 2, 2)
    if ports[1] == 4341:
        return tunnel_kind(packet[at + 8:])
    message = at + 8
    if packet[message] >> 4 == 2:
        return "reply to a probe" if packet[message] & 8 else "reply"
    if packet[message] >> 4 == 1:
        return "solicitation" if packet[message] & 1 else "probe"
    return request_kind(packet[message + 4 + (40 if packet[message + 4] >> 4 == 6 else 20) + 8:])


class Counted(Router):
    """A router that counts what is noticed, and for how many packets a locator without an echo is passed over."""

    def __init__(self, site, counts):
        super().__init__(site)
        self.counts = counts

    def note(self, moment, notice):
        known = len(self.journal)
        packets = super().note(moment, notice)
        effect = "kept" if len(self.journal) > known else "without effect"
        self.counts[f"notice {type(notice).__name__} {effect}"] += 1
        return packets

    def ticked(self, moment):
        """Counts what changes do, and what is held back while the resolver isn't reached."""
        known, second = len(self.journal), moment // SECOND
        due, before = [change for change in self.waiting() if change.at <= second], self.site
        packets = super().ticked(moment)
        new = list(map(type, self.journal[known:]))
        self.counts["change beside another of its second"] += len(due) > 1
        self.counts["change from before the first frame"] += sum(change.at < second for change in due)
        self.counts["change to what already was"] += len(due) == 1 and before.locators == self.site.locators
        if due:
            self.counts[f"change that tells {'somebody' if Solicited in new else 'nobody'}"] += 1
            self.counts["change with a probe in its second"] += Probed in new
        if self.site.resolver and not self.site.reaches_resolver():
            self.counts["second in which a request is held back"] += bool(self.journal.due(moment))
        return packets

    def missed(self, moment, eid, source):
        wants = (self.site.resolver and not self.site.reaches_resolver()
                 and self.journal.may_ask(moment, eid, self.site.limit(eid.iid)))
        self.counts["miss that isn't asked for, as the resolver isn't reached"] += bool(wants)
        return super().missed(moment, eid, source)

    def count_limited(self, eid, kind):
        """Counts what regards an instance at its limit, by whether that is of the settings or a share."""
        self.counts[f"{kind} at the {'limit' if eid.iid in self.site.stated else 'share'} of its instance"] += 1

    def asked(self, moment, eid, *how, **more):
        limit = self.site.limit(eid.iid)
        others = [entry for entry in self.journal.open_requests(moment).values() if entry.eid.covers(eid)]
        if self.site.reaches_resolver() and not others and self.journal.open_in(moment, eid.iid) >= limit.requests:
            self.count_limited(eid, "request that isn't made")
            self.counts["request that isn't made at a limit of 1024"] += limit.requests == 1024
        return super().asked(moment, eid, *how, **more)

    def may_learn(self, moment, covering, record):
        eid, live = record.eid, self.journal.live(moment)
        within = any(other.covers(eid) for other in covering) and eid not in self.site.static
        if within and self.journal.learned_in(moment, eid.iid) >= self.site.limit(eid.iid).mappings:
            kinds = {(True, True): "replaces a mapping", (True, False): "takes a mapping away",
                     (False, True): "is passed over", (False, False): "takes nothing away"}
            self.count_limited(eid, f"record that {kinds[eid in live, record.ttl > 0]}")
        return super().may_learn(moment, covering, record)

    def usable(self, moment, mapping):
        deaf = self.journal.deaf(moment)
        self.counts["packet for a mapping with a deaf locator"] += any(
            locator.address in deaf for locator in mapping.locators)
        return super().usable(moment, mapping)


# Pcapng files.


def fault_of(octets):
    """The word of a pcapng file's fault, or None."""
    try:
        for _ in Reader(octets, False).frames():
            pass
    except CaptureFault as fault:
        return str(fault).split()[0]
    return None


def counted_blocks(r, path, counts):
    """Counts what pcapng files of a capture's frames have."""
    made = written(r, frames_of(path))
    simple = {SIMPLE.to_bytes(4, order) for order in ("little", "big")}
    counts["pcapng simple packet"] += sum(block[:4] in simple for block in made.blocks)
    counts["pcapng big-endian section"] += sum(block[:12].endswith(b"\x1a\x2b\x3c\x4d") for block in made.blocks)
    tagged = zip(made.frames(True), made.frames(False))
    counts["pcapng frame tagged by its interface"] += sum(ours != theirs for ours, theirs in tagged)
    for _ in range(SPOILED):
        word = fault_of(spoiled(r, some_frames(r, path)))
        counts[f"pcapng fault {word}" if word else "pcapng file of some frames without a fault"] += 1


# Large packets.


def options_kinds(packet):
    """What becomes of the options of a packet in halves."""
    octets = packet.octets[20:packet.at]
    options = options_of(octets)
    if not octets:
        return ["a packet without options"]
    stay = sum(option[0] >> 7 for option in options)
    how = "of which some stay" if 0 < stay < len(options) else "which stay" if stay else "which go"
    is_end = any(octets[sum(map(len, options)):])
    return [f"a packet with options, {how}"] * bool(options) + ["a packet with options behind their end"] * is_end


def halves_kinds(vlan, packet, frame, pair):
    """The kinds of a packet in halves."""
    field, size = number(packet.octets, 6, 2), len(packet.octets)
    first = len(pair[0]) - packet.base - packet.at
    tests = {
        "a packet": True, "a fragment": field & 0x1FFF, "a fragment with more behind it": field & 0x2000,
        "a packet with the reserved flag": field & 0x8000, "a packet in a VLAN": vlan,
        "a packet at the last offset": (field & 0x1FFF) + first // 8 == 8191,
        "a packet with octets behind it": len(frame) > packet.base + size,
        "a packet that fits over IPv4 alone": size <= 1464, "the largest packet": size == 65535}
    return [kind for kind, is_so in tests.items() if is_so] + options_kinds(packet)


def why_whole(site, vlan, packet):
    """Why a large packet has no halves."""
    if len(packet.source) == 16:
        return "of IPv6"
    if not leaves(site, vlan, packet):
        return "that doesn't leave the site"
    if number(packet.octets, 6, 2) & 0x4000:
        return "with DF"
    return "whose options are at fault" if options_of(packet.octets[20:packet.at]) is None else "past the last offset"


def large_kinds(site, link, frame):
    """The kinds of a frame with a large packet."""
    try:
        vlan, place, octets = link_payload(link, frame)
        packet = Packet(octets, place)
    except Refused:
        return []
    pair = halves(site, link, frame)
    if pair:
        return [f"halves of {kind}" for kind in halves_kinds(vlan, packet, frame, pair)]
    is_large = len(packet.octets) > split_size(site)
    return [f"no halves of a large packet {why_whole(site, vlan, packet)}"] * is_large


def half_kind(verdict):
    """What becomes of a half."""
    known = {"encapsulated": "half encapsulated", "20": "half that is too large", "13": "half that is a miss",
             "native": "half natively"}
    return next((kind for word, kind in known.items() if word in verdict.split()[:2]), "half with another verdict")


def counted_large(r, site, text, path, counts):
    """Counts what becomes of large packets that are split."""
    capture(r, text, path, large_frames)
    router = Router(site)
    for moment, link, frame in frames_before(path):
        counts.update(large_kinds(site, link, frame))
        router.until(moment)
        pair = halves(site, link, frame)
        verdicts = [router.take(moment, link, one)[0] for one in pair or [frame]]
        counts.update(half_kind(verdict) for verdict in verdicts if pair)


def counted(r, folder, counts):
    text, path = settings(r), os.path.join(folder, "capture.pcap")
    capture(r, text, path)
    counted_blocks(random.Random(r.random()), path, counts)
    try:
        router = Counted(Site(text.encode()), counts)
    except rules.Fault as fault:
        counts["settings at fault"] += 1
        counts["settings whose limits are too many in all"] += str(fault) == "too-many limit"
        return
    for moment, link, frame in frames_of(path):
        counts.update(packet_kind(packet) for _, packet in router.until(moment))
        verdict, packets = router.take(moment, link, frame)
        kind = "verdict " + verdict_kind(verdict)
        counts["packet delivered in an instance that isn't attached"] += is_elsewhere(router.site, verdict)
        counts.update([kind, *packet_kinds(verdict, packets)] + [f"behind a change: {kind}"] * bool(router.journal.changes()))
    counts.update("entry " + type(entry).__name__ for entry in router.journal)
    at_once = collections.Counter(entry.moment for entry in router.journal if type(entry) is Probed)
    counts["second with sixteen probes"] += sum(count == 16 for count in at_once.values())
    counted_large(random.Random(r.random()), router.as_set, text, path, counts)


def main():
    rounds = int(sys.argv[1]) if len(sys.argv) > 1 else 100
    seed = int(sys.argv[2]) if len(sys.argv) > 2 else 1
    counts = collections.Counter()
    with tempfile.TemporaryDirectory() as folder:
        for i in range(rounds):
            counted(random.Random(f"{seed} {i}"), folder, counts)
    for kind, count in sorted(counts.items()):
        print(f"{count:8} {kind}")
    missing = [kind for kind in TO_COME if not counts[kind]]
    print(*(f"   never {kind}" for kind in missing), sep="\n", end="\n" * bool(missing))
    sys.exit(bool(missing))


if __name__ == "__main__":
    main()
