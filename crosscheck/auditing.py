"""A plain audit: a capture of what a router sent beside what the plain router sends, as docs/REFERENCE.md says."""
from itertools import zip_longest

import settings as rules
from captures import CaptureFault, frames_of
from messages import Request, message_of
from plain import turns
from router import Router
from sites import Site
from wire import Packet, Refused, link_payload

MOST_LIFTED = 1_000_000
SAME, SETTINGS, CAPTURE, DIFFERS = 0, 2, 3, 6
UDP, DATA_PORT, CONTROL_PORT = 17, 4341, 4342


def record_packet(link, frame):
    """The packet in a record without what stands around it; none where a rule of link or IP fails."""
    try:
        _, place, octets = link_payload(link, frame)
        return Packet(octets, place).octets
    except Refused:
        return b""


def first_difference(due, sent):
    """The first octet in which two packets differ, or the length of the shorter one."""
    at = 0
    while at < min(len(due), len(sent)) and due[at] == sent[at]:
        at += 1
    return at


def compared(due, sent):
    """The status and the words of an audit of packets that were due and packets that were sent."""
    for position, (ours, theirs) in enumerate(zip_longest(due, sent), 1):
        if ours is None:
            return DIFFERS, f"extra record={position}"
        if theirs is None:
            return DIFFERS, f"missing record={position}"
        if ours != theirs:
            return DIFFERS, f"differs record={position} place={first_difference(ours, theirs)}"
    return SAME, f"same packets={len(due)}"


def own_nonce(site, link, frame):
    """The nonce of the Map-Request that the site's router sent in a frame, encapsulated or not; or None."""
    try:
        _, place, octets = link_payload(link, frame)
        packet = Packet(octets, place)
        if packet.protocol != UDP or packet.fragment or not site.is_own(packet.source):
            return None
        source, dest, checksum, datagram = packet.udp()
        if dest == DATA_PORT or CONTROL_PORT not in (source, dest):
            return None
        packet.check(checksum, datagram, False)
        _, message, _ = message_of(datagram[8:], place)
    except Refused:
        return None
    return message.nonce if isinstance(message, Request) else None


def lifted(site, records):
    """The nonces of the router's own Map-Requests, each at its first place."""
    nonces = (own_nonce(site, link, frame) for _, link, frame in records)
    return list(dict.fromkeys(nonce for nonce in nonces if nonce is not None))[:MOST_LIFTED]


def due_packets(site, frames):
    """What the plain router sends, in the order of an output."""
    return [packet for *_, sent in turns(Router(site), frames) for _, packet in sent]


def audited(site, frames, records, lifts):
    if lifts:
        site.nonces = lifted(site, records)
    return compared(due_packets(site, frames), [record_packet(link, frame) for _, link, frame in records])


def audit(settings, capture, sent, lifts):
    """Audits what was sent, with the nonces of the settings, or with those that are lifted out of it."""
    kind = "capture"
    try:
        with open(settings, "rb") as file:
            site = Site(file.read())
        if lifts and site.echo:
            rules.fail("bad-value", ["echo"])
        frames = list(frames_of(capture))
        kind = "sent"
        records = list(frames_of(sent))
    except rules.Fault as fault:
        print(f"settings {fault}")
        return SETTINGS
    except CaptureFault as fault:
        print(f"{kind} {fault}")
        return CAPTURE
    status, words = audited(site, frames, records, lifts)
    print(f"audit {words}")
    return status
