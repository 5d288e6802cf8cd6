"""Packets of the router's, over IPv4 without options, each changed in one field, with right checksums: for tests.

No place here is read from a packet but where another one depends on it, and nothing is shared with what reads fields.
"""
import struct

# Changes of a header of IPv4 without options: the octet in it, and the bits that are turned.
IP = {"dscp": (1, 4), "ecn": (1, 1), "len": (3, 1), "id": (5, 1), "reserved": (6, 128), "df": (6, 64), "mf": (6, 32),
      "offset": (7, 1), "ttl": (8, 2), "protocol": (9, 1), "src": (15, 1), "dst": (19, 1)}
UDP = {"srcport": (1, 1), "dstport": (3, 8), "length": (5, 1)}
DATA = {"n": (0, 128), "l": (0, 64), "e": (0, 32), "v": (0, 16), "i": (0, 8), "reserved": (0, 4), "key": (0, 1),
        "bits": (7, 1)}
IID = {"iid": (6, 1)}
NONCE, VERSIONS = {"nonce": (3, 1)}, {"source-version": (1, 1), "dest-version": (3, 1)}
ECM = {"security": (0, 8), "ddt": (0, 4), "reserved": (2, 1)}
# With an EID of an instance as its source, or without one. The mask length counts to the EID.
REQUEST = {"authoritative": (0, 8), "probe": (0, 2), "smr": (0, 1), "pitr": (1, 128), "smr-invoked": (1, 64),
           "reserved": (1, 1), "local-xtr": (2, 64), "dont-map-reply": (2, 32), "nonce": (11, 1)}
SOURCED = {"source-eid": (29, 1), "itr-rloc": (35, 1)}
SOURCELESS = {"itr-rloc": (19, 1)}
REPLY = {"probe": (0, 8), "echo": (0, 4), "security": (0, 2), "reserved": (1, 1), "nonce": (11, 1)}
RECORD = {"ttl": (3, 1), "action": (6, 32), "authoritative": (6, 16), "reserved": (7, 1), "version": (9, 1),
          "eid": (27, 1)}
LOCATOR = {"priority": (0, 1), "weight": (1, 1), "mpriority": (2, 1), "mweight": (3, 1), "reserved": (4, 1),
           "local": (5, 4), "probed": (5, 2), "reachable": (5, 1), "address": (11, 1)}


# Packets.


def number(octets, at, size):
    return int.from_bytes(octets[at:at + size], "big")


def folded(octets):
    total = sum(struct.unpack(f">{(len(octets) + 1) // 2}H", octets + bytes(len(octets) % 2)))
    while total >> 16:
        total = (total & 0xFFFF) + (total >> 16)
    return 0xFFFF - total


def summed_ip(octets, at):
    """A packet in which the header of IPv4 at a place has the right checksum."""
    front = octets[at:at + 10] + bytes(2) + octets[at + 12:at + 20]
    return octets[:at + 10] + struct.pack(">H", folded(front)) + octets[at + 12:]


def summed_udp(octets, at):
    """A packet in which the datagram behind the header of IPv4 at a place has the right checksum."""
    size = number(octets, at + 24, 2)
    datagram = octets[at + 20:at + 26] + bytes(2) + octets[at + 28:at + 20 + size]
    checksum = folded(octets[at + 12:at + 20] + struct.pack(">HH", 17, size) + datagram)
    return octets[:at + 26] + struct.pack(">H", checksum or 0xFFFF) + octets[at + 28:]


def is_tunnel(octets):
    return octets[9] == 17 and number(octets, 22, 2) == 4341


def is_message(octets):
    return octets[9] == 17 and 4342 in (number(octets, 20, 2), number(octets, 22, 2))


def inner_place(octets):
    """Where the packet inside begins: behind a LISP header, or behind the front of an encapsulated message; or None."""
    if is_tunnel(octets):
        return 36
    return 32 if is_message(octets) and octets[28] >> 4 == 8 else None


def repaired(octets, place, is_summed):
    """A packet with right checksums, the innermost first; that of a tunnel packet's datagram stays 0."""
    if place:
        octets = summed_ip(octets, place)
        octets = summed_udp(octets, place) if is_summed else octets
    octets = summed_udp(octets, 0) if is_summed else octets
    return summed_ip(octets, 0)


def turned(octets, at, bits):
    return octets[:at] + bytes([octets[at] ^ bits]) + octets[at + 1:]


def longer(octets):
    """A message with four octets behind it, of which the headers of IP and UDP tell."""
    sizes = number(octets, 2, 2) + 4, number(octets, 24, 2) + 4
    front = octets[:2] + struct.pack(">H", sizes[0]) + octets[4:24] + struct.pack(">H", sizes[1])
    return front + octets[26:] + bytes(4)


def at_place(layer, changes, place):
    return {f"{layer}.{name}": (place + at, bits) for name, (at, bits) in changes.items()}


def request_changes(octets, at):
    changes = at_place("request", REQUEST, at)
    is_sourced = number(octets, at + 12, 2) != 0
    changes |= at_place("request", SOURCED if is_sourced else SOURCELESS, at)
    eid = at + (30 if is_sourced else 14) + 6 * ((octets[at + 2] & 31) + 1)
    return changes | {"request.eid-reserved": (eid, 1), "request.eid": (eid + 19, 1)}


def reply_changes(octets, at):
    return at_place("reply", REPLY, at) | at_place("record", RECORD, at + 12) | at_place("locator", LOCATOR, at + 40)


def changes_of(octets):
    """What is changed of a packet of the router's: fields, each with its place and bits."""
    changes = at_place("ip", IP, 0)
    if is_tunnel(octets):
        middle = NONCE if octets[28] & 128 else VERSIONS if octets[28] & 16 else {}
        middle = middle | IID if octets[28] & 8 else middle
        changes |= at_place("udp", UDP, 20) | at_place("lisp.data", DATA | middle, 28)
        return changes | at_place("inner", IP, 36)
    if not is_message(octets):
        del changes["ip.len"]
        return changes
    changes |= at_place("udp", UDP, 20)
    at = 28
    if octets[28] >> 4 == 8:
        changes |= at_place("ecm", ECM, 28) | at_place("inner", IP, 32) | at_place("inner.udp", UDP, 52)
        for name in ("mf", "offset", "protocol"):
            del changes[f"inner.{name}"]
        at = 60
    return changes | (request_changes if octets[at] >> 4 == 1 else reply_changes)(octets, at)


def changed(octets):
    """A packet in all its changes, each by the field that it is named for."""
    place, is_summed = inner_place(octets), is_message(octets)
    for name, (at, bits) in changes_of(octets).items():
        yield name, repaired(turned(octets, at, bits), place, is_summed)
    yield "ip.checksum", turned(octets, 11, 1)
    if place or is_summed:
        yield "udp.checksum", summed_ip(octets[:26] + b"\x12\x34" + octets[28:], 0)
    if is_tunnel(octets) and len(octets) > 64:
        yield "inner.payload", turned(octets, len(octets) - 1, 1)
    if octets[9] != 17:
        yield "ip.payload", turned(octets, len(octets) - 1, 1)
    if is_summed and octets[28] >> 4 != 8:
        yield "message.type", repaired(turned(octets, 28, 48), place, is_summed)
        yield "message.size", repaired(longer(octets), place, is_summed)
