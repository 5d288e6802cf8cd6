"""A packet that a LISP router sends, read as fields: a tunnel packet, a control message, or any other packet."""
from collections import Counter
from typing import NamedTuple

from control import message_of
from layers import Unread, ip_fields, is_udp, named, need, udp_fields

DATA_PORT, CONTROL_PORT = 4341, 4342
TUNNEL, PLAIN = "tunnel packet", "packet"
# Protocols whose header begins with two ports.
PORTS = 6, 17, 132
# Behind the headers of IPv4 and UDP, and four octets: what stands there has neither ports nor the type of a message.
TAIL = 32
NONCES = {"Map-Request": "request.nonce", "Map-Reply": "reply.nonce"}


class Reading(NamedTuple):
    """What a packet is, its fields, the LISP header of a tunnel packet, the items of a message, and the octets that no
    field has."""
    kind: str
    fields: dict
    header: bytes
    items: tuple
    rest: bytes


def common_of(sizes):
    """Of several sizes of one thing the one that most have, or else the last."""
    *others, last = sizes.values()
    if all(size == last for size in others):
        return last
    counts = Counter(sizes.values())
    return max(counts, key=lambda size: (counts[size], size == last))


def sizes_judged(sizes):
    """By how much each of several sizes of one thing is beside the common one."""
    common = common_of(sizes)
    return {name: "fits" if size == common else f"{size - common:+} octets" for name, size in sizes.items()}


def tunnel_reading(fields, payload, sizes):
    """A tunnel packet, by the payload of its UDP datagram."""
    need(len(payload) >= 8)
    inner, at, size = ip_fields(payload[8:])
    sizes["inner.len"] = 8 + size
    common = common_of(sizes)
    need(8 + at <= common <= len(payload))
    fields |= named("inner", inner) | sizes_judged(sizes)
    return Reading(TUNNEL, fields, payload[:8], (), payload[8 + at:common])


def message_reading(fields, payload, sizes):
    """A control message, by the payload of its UDP datagram."""
    message, outer, more = message_of(payload)
    fields |= outer | message.fields | sizes_judged(sizes | more)
    return Reading(message.kind, fields, b"", message.items, b"")


def udp_reading(fields, octets, at, size):
    """What a UDP datagram is, whose IP packet has so many octets by its header."""
    udp, udp_size = udp_fields(octets, at)
    fields = fields | named("udp", udp)
    payload, sizes = octets[at + 8:], {"ip.len": size - at - 8, "udp.length": udp_size - 8}
    if udp["dstport"] == DATA_PORT:
        return tunnel_reading(fields, payload, sizes)
    need(CONTROL_PORT in (udp["srcport"], udp["dstport"]))
    return message_reading(fields, payload, sizes)


def plain_reading(header, fields, octets, at, size):
    """A packet that is no LISP, or whose LISP isn't whole."""
    fields = fields | {"ip.len": "fits" if size <= len(octets) else "cut"}
    if not is_udp(header) or size < at + 8 or len(octets) < at + 8:
        return Reading(PLAIN, fields, b"", (), octets[at:size])
    udp, udp_size = udp_fields(octets, at)
    judged = sizes_judged({"udp.length": udp_size, "ip.len": size - at})
    fields |= named("udp", udp) | {"udp.length": judged["udp.length"]}
    return Reading(PLAIN, fields, b"", (), octets[at:size])


def reading_of(octets):
    """A packet as fields; Unread where its own header of IP isn't whole."""
    header, at, size = ip_fields(octets)
    fields = named("ip", header)
    if is_udp(header):
        try:
            return udp_reading(fields, octets, at, size)
        except Unread:
            pass
    return plain_reading(header, fields, octets, at, size)


# How readings are told apart and told.


def eids_of(reading):
    return tuple(sorted(item.value for item in reading.items if item.key == "eid"))


def inner_of(reading):
    """The layer of the packet that is carried."""
    return "inner" if reading.kind == TUNNEL else "ip"


def flow_of(reading):
    """Addresses, protocol and ports of the packet that is carried."""
    layer, fields = inner_of(reading), reading.fields
    protocol = fields[f"{layer}.protocol"]
    ports = reading.rest[:4] if protocol in PORTS and not fields.get(f"{layer}.offset") else b""
    return fields[f"{layer}.src"], fields[f"{layer}.dst"], protocol, ports


def payload_keys(reading):
    layer, flow = inner_of(reading), flow_of(reading)
    body = reading.fields.get(f"{layer}.id"), reading.rest
    return [(1, reading.kind, flow, body), (2, reading.kind, flow), (3, reading.kind, body)]


def message_keys(reading):
    fields, eids = reading.fields, eids_of(reading)
    nonce, what = fields[NONCES[reading.kind]], reading.kind
    if what == "Map-Reply":
        return [(1, what, nonce, eids), (2, what, nonce), (3, what, eids, fields["ip.dst"])]
    role = fields["request.probe"], fields["request.smr"]
    to = fields["ip.dst"]
    if role[0]:
        return [(1, what, nonce, eids, to), (2, what, role, to), (4, what, nonce)]
    return [(1, what, nonce, eids, to), (2, what, role, eids, to), (3, what, role, eids), (4, what, nonce)]


def keys_of(reading, octets):
    """What a packet's partner has in common with it, from the strongest on; the first number is how strong it is."""
    keys = [(0, octets), *(message_keys if reading.kind in NONCES else payload_keys)(reading)]
    return keys + [(5, octets[TAIL:])] if len(octets) > TAIL else keys


def described(reading):
    """A packet in short."""
    fields = reading.fields
    ends = f"{fields['ip.src']} > {fields['ip.dst']}"
    if reading.kind == TUNNEL:
        return f"{reading.kind} {ends}, inside {fields['inner.src']} > {fields['inner.dst']}"
    if reading.kind == PLAIN:
        return f"{reading.kind} {ends}"
    role = next((word for word in ("probe", "smr") if fields.get(f"request.{word}")), "")
    return f"{reading.kind}{role and ' ' + role} {ends}, EID {', '.join(eids_of(reading)) or 'none'}"
