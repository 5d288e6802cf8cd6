"""LISP control messages (RFC 9301, section 5) and the EIDs in them (RFC 8060), as fields and items."""
from typing import NamedTuple

from layers import address_of, datagram_at, ip_fields, is_udp, is_whole, named, need, number, udp_fields

REQUEST, REPLY, ENCAPSULATED = 1, 2, 8
KINDS = {REQUEST: "Map-Request", REPLY: "Map-Reply"}
LCAF, INSTANCE = 16387, 2
SIZES = {1: 4, 2: 16}
# Flags of a message, each a mask of its first 32 bits; and of a locator, of its 16.
REQUEST_FLAGS = {"authoritative": 0x08000000, "map-data": 0x04000000, "probe": 0x02000000, "smr": 0x01000000,
                 "pitr": 0x00800000, "smr-invoked": 0x00400000, "local-xtr": 0x00004000, "dont-map-reply": 0x00002000}
REPLY_FLAGS = {"probe": 0x08000000, "echo": 0x04000000, "security": 0x02000000}
OUTER_FLAGS = {"security": 0x08000000, "ddt": 0x04000000}
LOCATOR_FLAGS = {"local": 4, "probed": 2, "reachable": 1}
COUNTS, REQUEST_COUNTS = 0xFF, 0x1FFF


class Item(NamedTuple):
    """A part of a message of which there may be several: its layer, the field that names it and that one's value, other
    fields, and the items in it."""
    layer: str
    key: str
    value: str
    fields: dict
    items: tuple = ()


class Message(NamedTuple):
    """A message: its type, its fields and its items; how many octets it has."""
    kind: str
    fields: dict
    items: tuple
    size: int


def flags_of(layer, value, masks, counts):
    """Each flag by its name; all bits that are no flag, no type and no count are reserved."""
    fields = {name: int(bool(value & mask)) for name, mask in masks.items()}
    fields["reserved"] = f"{value & 0x0FFFFFFF & ~sum(masks.values()) & ~counts:07x}"
    return named(layer, fields)


def located(octets, at):
    """The address behind an AFI, and where it ends."""
    size = SIZES.get(number(octets, at, 2))
    need(size and len(octets) >= at + 2 + size)
    return address_of(octets[at + 2:at + 2 + size]), at + 2 + size


def eid_at(octets, at):
    """The instance and address of an EID and where it ends; without an address where there is none."""
    need(len(octets) >= at + 2)
    family, iid = number(octets, at, 2), 0
    if family == 0:
        return 0, None, at + 2
    if family == LCAF:
        need(len(octets) >= at + 12 and octets[at + 4] == INSTANCE)
        iid, at = number(octets, at + 8, 4), at + 12
    return iid, *located(octets, at)


def prefix_at(octets, at, length):
    iid, address, end = eid_at(octets, at)
    need(address is not None)
    return f"{iid} {address}/{length}", end


def locator_at(octets, at):
    need(len(octets) >= at + 8)
    flags = number(octets, at + 4, 2)
    address, end = located(octets, at + 6)
    fields = dict(zip(("priority", "weight", "mpriority", "mweight"), octets[at:at + 4]))
    fields |= {name: int(bool(flags & mask)) for name, mask in LOCATOR_FLAGS.items()}
    fields["reserved"] = flags & ~sum(LOCATOR_FLAGS.values())
    return Item("locator", "address", address, named("locator", fields)), end


def record_at(octets, at):
    need(len(octets) >= at + 10)
    flags, version = octets[at + 6], number(octets, at + 8, 2)
    fields = {
        "ttl": number(octets, at, 4), "action": flags >> 5, "authoritative": flags >> 4 & 1,
        "reserved": f"{(flags & 15) << 8 | octets[at + 7]:03x}{version >> 12:x}", "version": version & 0xFFF}
    eid, end = prefix_at(octets, at + 10, octets[at + 5])
    locators = []
    for _ in range(octets[at + 4]):
        locator, end = locator_at(octets, end)
        locators.append(locator)
    return Item("record", "eid", eid, named("record", fields), tuple(locators)), end


def asked_at(octets, at):
    need(len(octets) >= at + 2)
    eid, end = prefix_at(octets, at + 2, octets[at + 1])
    return Item("request", "eid", eid, {"request.eid-reserved": octets[at]}), end


def reply_address_at(octets, at):
    address, end = located(octets, at)
    return Item("request", "itr-rloc", address, {}), end


def items_at(octets, at, *readers):
    """The items that one reader after another takes from a place on, and where they end."""
    items = []
    for read in readers:
        item, at = read(octets, at)
        items.append(item)
    return tuple(items), at


def request_of(octets):
    first = number(octets, 0, 4)
    iid, address, at = eid_at(octets, 12)
    counts = [reply_address_at] * ((first >> 8 & 31) + 1) + [asked_at] * (first & 255)
    if first & REQUEST_FLAGS["map-data"]:
        counts.append(record_at)
    items, at = items_at(octets, at, *counts)
    fields = flags_of("request", first, REQUEST_FLAGS, REQUEST_COUNTS)
    fields["request.nonce"] = octets[4:12].hex()
    fields["request.source-eid"] = f"{iid} {address}" if address else "none"
    return Message(KINDS[REQUEST], fields, items, at)


def reply_of(octets):
    first = number(octets, 0, 4)
    items, at = items_at(octets, 12, *[record_at] * (first & 255))
    fields = flags_of("reply", first, REPLY_FLAGS, COUNTS) | {"reply.nonce": octets[4:12].hex()}
    return Message(KINDS[REPLY], fields, items, at)


def plain_message(octets):
    """A Map-Request or a Map-Reply."""
    need(len(octets) >= 12 and octets[0] >> 4 in KINDS)
    return request_of(octets) if octets[0] >> 4 == REQUEST else reply_of(octets)


def message_inside(octets):
    """A message, and whether it is encapsulated; nothing is read of what it is encapsulated in."""
    need(len(octets) >= 4)
    if octets[0] >> 4 != ENCAPSULATED:
        return plain_message(octets), False
    packet = octets[4:]
    need(is_whole(packet))
    at = datagram_at(packet)
    need(at is not None)
    return plain_message(packet[at + 8:]), True


def message_of(octets):
    """A message, the fields of what it is encapsulated in, and the sizes of the layers as they say them of this one."""
    need(len(octets) >= 4)
    if octets[0] >> 4 != ENCAPSULATED:
        message = plain_message(octets)
        return message, {}, {"message.size": message.size}
    packet = octets[4:]
    inner, at, size = ip_fields(packet)
    need(is_udp(inner))
    udp, udp_size = udp_fields(packet, at)
    message = plain_message(packet[at + 8:])
    fields = flags_of("ecm", number(octets, 0, 4), OUTER_FLAGS, 0) | named("inner", inner) | named("inner.udp", udp)
    sizes = {"inner.len": 4 + size, "inner.udp.length": 4 + at + udp_size, "message.size": 4 + at + 8 + message.size}
    return message, fields, sizes
