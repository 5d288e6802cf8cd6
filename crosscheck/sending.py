"""The packets that the router makes: into tunnels, and with control messages (RFC 9300, RFC 9301)."""
import struct

from lisp import header_to
from wire import control_packet, ip_header

# Flags of a Map-Request, of a record, and of a locator.
PROBE, SOLICIT, INVOKED = 0x200, 0x100, 0x40
A_BIT, L_BIT, P_BIT, R_BIT = 0x1000, 4, 2, 1


def wrapped(site, iid, packet, port, ours, to, told):
    """The packet in its tunnel; what its header tells are flags, and a nonce or versions."""
    bits = sum(1 << i for i, own in enumerate(site.locators) if own.reachable)
    inner = packet.marked(packet.tos, packet.ttl - 1)
    udp = struct.pack(">HHHH", port, 4341, 16 + len(inner), 0) + header_to(*told, bits, iid) + inner
    return ip_header(ours, to, len(udp), packet.ttl - 1, packet.tos) + udp


def located(address):
    return struct.pack(">H", 1 if len(address) == 4 else 2) + address


def eid_octets(iid, address):
    """An EID from its AFI on; behind a list of type 2 (RFC 8060) where the instance isn't 0."""
    if iid == 0:
        return located(address)
    size = 4 + 2 + len(address)
    return struct.pack(">HBBBBHI", 16387, 0, 0, 2, 0, size, iid) + located(address)


def map_request(flags, nonce, eid, source, replies_to):
    """A Map-Request for one EID; its source, where there is one, is an address of the EID's instance."""
    front = struct.pack(">HBBQ", 0x1000 | flags, len(replies_to) - 1, 1, nonce)
    own = bytes(2) if source is None else eid_octets(eid.iid, source)
    record = bytes([0, eid.length]) + eid_octets(eid.iid, eid.octets())
    return front + own + b"".join(map(located, replies_to)) + record


def probe_packet(site, address, nonce, eid):
    """The packet that probes a locator, with an EID that it is named for."""
    message = map_request(PROBE, nonce, eid, None, site.up())
    return control_packet(site.ours(len(address)), address, message)


def solicit_packet(site, solicited):
    """The packet that tells a locator to ask for a prefix of the site again."""
    eid = solicited.eid
    message = map_request(SOLICIT, solicited.nonce, eid, eid.octets(), site.up())
    return control_packet(site.ours(len(solicited.address)), solicited.address, message)


def request_packet(site, asked):
    """The packet that asks the resolver for an EID, encapsulated."""
    eid, size = asked.eid, asked.eid.width // 8
    message = map_request(INVOKED * asked.invoked, asked.nonce, eid, asked.source, site.up())
    prefixes = [own.octets() for own in site.databases if (own.iid, own.width) == (eid.iid, eid.width)]
    inner = site.ours(size) or next(iter(prefixes), bytes(size))
    request = control_packet(inner, eid.octets(), message)
    return control_packet(site.ours(len(site.resolver)), site.resolver, bytes([0x80, 0, 0, 0]) + request)


def own_record(site, eid, probed):
    """What the site says of one of its EIDs, with the locator that was probed, or None."""
    octets = struct.pack(">IBBHH", site.ttl, len(site.locators), eid.length, A_BIT, site.versions[eid])
    octets += eid_octets(eid.iid, eid.octets())
    for own in site.locators:
        flags = L_BIT | P_BIT * (own.address == probed) | R_BIT * own.reachable
        octets += struct.pack(">BBBBH", own.priority, own.weight, 255, 0, flags) + located(own.address)
    return octets


def reply_packet(site, request, eids, path, port):
    """The packet that answers a request with some of the site's EIDs; its path is addresses from and to."""
    front = struct.pack(">BHBQ", 0x28 if request.probe else 0x20, 0, len(eids), request.nonce)
    probed = path[0] if request.probe else None
    return control_packet(*path, front + b"".join(own_record(site, eid, probed) for eid in eids), port)
