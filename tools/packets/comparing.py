"""In which fields two packets differ, and which of those another router may choose."""
from itertools import zip_longest

from layers import number
from reading import NONCES, TUNNEL

# Flags of the first octet of a LISP header (RFC 9300, section 5.1).
FLAGS = {"n": 0x80, "l": 0x40, "e": 0x20, "v": 0x10, "i": 0x08, "reserved": 0x04}
N, L, V, I = (FLAGS[name] for name in "nlvi")
ENCAPSULATION = "ecm."

FIELDS = {
    "ip": "version dscp ecn len id reserved df mf offset flow ttl protocol checksum src dst options payload",
    "udp": "srcport dstport length checksum payload",
    "lisp.data": "n l e v i reserved key nonce source-version dest-version iid bits",
    "inner": "version dscp ecn len id reserved df mf offset flow ttl protocol checksum src dst options payload",
    "inner.udp": "srcport dstport length checksum",
    "ecm": "encapsulated security ddt reserved",
    "message": "type size",
    "request": "nonce authoritative map-data probe smr pitr smr-invoked local-xtr dont-map-reply reserved source-eid "
               "eid eid-reserved itr-rloc order",
    "reply": "nonce probe echo security reserved order",
    "record": "eid ttl action authoritative version reserved order",
    "locator": "address priority weight mpriority mweight local probed reachable reserved order",
    "packet": "order missing extra"}
LAYERS = {layer: [f"{layer}.{field}" for field in fields.split()] for layer, fields in FIELDS.items()}
NAMES = [name for names in LAYERS.values() for name in names]

# What RFC 9300 and 9301 leave to a router: of any packet, and of one with a message that the router makes itself.
LEFT = {"ip.id", "ip.flow", "packet.order", "request.order", "reply.order", "record.order", "locator.order",
        "request.nonce", "record.ttl"}
LEFT_OF_TUNNELS = {"udp.srcport"}
LEFT_OF_REQUESTS = {"udp.srcport", "inner.udp.srcport", "inner.src"}
LEFT_OF_MESSAGES = {
    f"{layer}.{field}" for layer in ("ip", "inner") for field in ("dscp", "ecn", "df", "ttl", "id", "flow")}
STATUS = {"lisp.data.l", "lisp.data.bits"}


def header_differences(due, sent):
    """Of two LISP headers, by what either says that they have."""
    for name, flag in FLAGS.items():
        yield name, int(bool(due[0] & flag)), int(bool(sent[0] & flag))
    yield "key", due[0] & 3, sent[0] & 3
    has, either = due[0] if due[0] & (N | V) else sent[0], due[0] | sent[0]
    if has & N:
        yield "nonce", due[1:4].hex(), sent[1:4].hex()
    elif has & V:
        ours, theirs = number(due, 1, 3), number(sent, 1, 3)
        yield "source-version", ours >> 12, theirs >> 12
        yield "dest-version", ours & 0xFFF, theirs & 0xFFF
    at = 7 if either & I else 4
    if either & I:
        yield "iid", number(due, 4, 3), number(sent, 4, 3)
    if either & L:
        yield "bits", f"0x{due[at:8].hex()}", f"0x{sent[at:8].hex()}"


def item_differences(due, sent):
    """Of two lists of items of one layer and key: partners by value, and the others in their order."""
    waiting, pairs, alone = list(sent), [], []
    for item in due:
        partner = next((other for other in waiting if other.value == item.value), None)
        if partner:
            waiting.remove(partner)
            pairs.append((item, partner))
        else:
            alone.append(item)
    if not alone and not waiting and [item.value for item in due] != [item.value for item in sent]:
        yield f"{due[0].layer}.order", ", ".join(item.value for item in due), ", ".join(item.value for item in sent)
    for item, partner in zip_longest(alone, waiting):
        one = item or partner
        yield f"{one.layer}.{one.key}", item.value if item else "none", partner.value if partner else "none"
        if item and partner:
            pairs.append((item, partner))
    for item, partner in pairs:
        yield from dict_differences(item.fields, partner.fields)
        yield from all_item_differences(item.items, partner.items)


def all_item_differences(due, sent):
    for kind in dict.fromkeys((item.layer, item.key) for item in (*due, *sent)):
        yield from item_differences(*(
            [item for item in items if (item.layer, item.key) == kind] for items in (due, sent)))


def dict_differences(due, sent):
    """Of the fields that both have."""
    return [(name, value, sent[name]) for name, value in due.items() if name in sent and value != sent[name]]


def first_octet(due, sent):
    """The first octet in which two texts differ, as two values."""
    at = next((at for at, (one, other) in enumerate(zip(due, sent)) if one != other), min(len(due), len(sent)))
    return (f"{len(octets)} octets, at {at} {octets[at:at + 4].hex() or 'none'}" for octets in (due, sent))


def kind_differences(due, sent):
    """Of packets that aren't read as one kind."""
    both = dict_differences(due.fields, sent.fields)
    if both:
        yield from both
    elif due.kind in NONCES or sent.kind in NONCES:
        yield "message.type", due.kind, sent.kind
    else:
        yield "udp.payload", due.kind, sent.kind


def differences(due, sent):
    """The fields in which two packets differ: each by its name, with the value that was due and the one sent."""
    if due.kind != sent.kind:
        yield from kind_differences(due, sent)
        return
    encapsulated = ["ecm.reserved" in reading.fields for reading in (due, sent)]
    if encapsulated[0] != encapsulated[1]:
        yield "ecm.encapsulated", *map(int, encapsulated)
    yield from dict_differences(due.fields, sent.fields)
    if due.kind == TUNNEL:
        yield from ((f"lisp.data.{name}", ours, theirs)
                    for name, ours, theirs in header_differences(due.header, sent.header) if ours != theirs)
    yield from all_item_differences(due.items, sent.items)
    yield from rest_differences(due, sent)


def rest_differences(due, sent):
    """Of what is behind the last header that is read."""
    if due.kind == TUNNEL:
        layer, at = "inner", 0
    else:
        is_udp = all("udp.length" in reading.fields for reading in (due, sent))
        layer, at = ("udp", 8) if is_udp else ("ip", 0)
    if due.rest[at:] != sent.rest[at:]:
        yield f"{layer}.payload", *first_octet(due.rest[at:], sent.rest[at:])


def left_to_routers(due, sent):
    """The fields of a packet that the standards leave to a router."""
    left = set(LEFT)
    if due.kind == TUNNEL:
        left |= LEFT_OF_TUNNELS
        if sent.kind == TUNNEL and not sent.header[0] & L:
            left |= STATUS
    elif due.kind in NONCES:
        left |= LEFT_OF_MESSAGES
        if due.kind == "Map-Request":
            left |= LEFT_OF_REQUESTS
    return left
