"""The headers of a frame down to its IP packet, and those of IP and UDP (RFC 791, RFC 8200, RFC 768), as fields."""
import functools
import struct
from socket import inet_ntoa

ETHERNET, RAW = 1, (12, 14, 101)
# Of links with one protocol field: where it stands, and where the packet begins. SLL and SLL2 are those of `any`.
COOKED = {113: (14, 16), 276: (0, 20)}
OF_ONE_VERSION = {228: 4, 229: 6}
TAGS, IP = (b"\x81\x00", b"\x88\xa8"), (b"\x08\x00", b"\x86\xdd")
UDP = 17


class Unread(Exception):
    """Octets that aren't what they should be read as."""


def need(test):
    if not test:
        raise Unread


def number(octets, at, size):
    return int.from_bytes(octets[at:at + size], "big")


@functools.lru_cache(65_536)
def address_of(octets):
    """An address; of IPv6 as RFC 5952 has it, in hexadecimal throughout, as settings take it."""
    if len(octets) == 4:
        return inet_ntoa(octets)
    groups = [f"{octets[at] << 8 | octets[at + 1]:x}" for at in range(0, 16, 2)]
    first, count = longest_zeros(groups)
    if count < 2:
        return ":".join(groups)
    return ":".join(groups[:first]) + "::" + ":".join(groups[first + count:])


def longest_zeros(groups):
    """Where the first of the longest rows of groups that are 0 begins, and how many it has."""
    first = count = row = 0
    for at, group in enumerate(groups):
        row = row + 1 if group == "0" else 0
        if row > count:
            first, count = at + 1 - row, row
    return first, count


def ones_sum(octets):
    """The sum of 16-bit words by which the Internet's checksums go."""
    value = int.from_bytes(octets + bytes(len(octets) % 2), "big")
    return value % 0xFFFF or (0xFFFF if value else 0)


def packet_in(link, frame):
    """The VLAN and the IP packet of a frame with what stands behind it, or None where it has none."""
    vlan, at, family = 0, 0, None
    if link == ETHERNET:
        at, family = 14, frame[12:14]
        if family in TAGS:
            vlan, at, family = number(frame, 14, 2) & 0xFFF, 18, frame[16:18]
        while family in TAGS:
            at, family = at + 4, frame[at + 2:at + 4]
    elif link in COOKED:
        place, at = COOKED[link]
        family = frame[place:place + 2]
    elif link not in RAW and link not in OF_ONE_VERSION:
        return None
    packet = frame[at:]
    if family not in (None, *IP) or not is_whole(packet):
        return None
    # Behind a small packet an Ethernet frame is filled up.
    return vlan, packet[:max(size_of(packet), 4 * (packet[0] & 15))] if link == ETHERNET else packet


def is_whole(packet):
    """Whether a header of IP is there, though what is behind it may be cut."""
    version = packet[0] >> 4 if packet else 0
    return version == 4 and 20 <= 4 * (packet[0] & 15) <= len(packet) or version == 6 and len(packet) >= 40


def size_of(packet):
    """The size of a packet, as its header says it."""
    return number(packet, 2, 2) if packet[0] >> 4 == 4 else 40 + number(packet, 4, 2)


def datagram_at(packet):
    """Where the UDP header of a packet begins, or None where it has none or is a fragment."""
    if packet[0] >> 4 == 4:
        return 4 * (packet[0] & 15) if packet[9] == UDP and not packet[6] & 0x3F and not packet[7] else None
    return 40 if packet[6] == UDP else None


def ends_of(packet):
    """The source and the destination of a packet."""
    if packet[0] >> 4 == 4:
        return address_of(packet[12:16]), address_of(packet[16:20])
    return address_of(packet[8:24]), address_of(packet[24:40])


def v4_fields(octets):
    at, flags = 4 * (octets[0] & 15), number(octets, 6, 2)
    fields = {
        "version": 4, "dscp": octets[1] >> 2, "ecn": octets[1] & 3, "id": number(octets, 4, 2),
        "reserved": flags >> 15, "df": flags >> 14 & 1, "mf": flags >> 13 & 1, "offset": flags & 0x1FFF,
        "ttl": octets[8], "protocol": octets[9],
        "checksum": "right" if ones_sum(octets[:at]) == 0xFFFF else "wrong",
        "src": address_of(octets[12:16]), "dst": address_of(octets[16:20]), "options": octets[20:at].hex()}
    return fields, at


def v6_fields(octets):
    first = number(octets, 0, 4)
    fields = {
        "version": 6, "dscp": first >> 22 & 63, "ecn": first >> 20 & 3, "flow": first & 0xFFFFF,
        "ttl": octets[7], "protocol": octets[6], "src": address_of(octets[8:24]), "dst": address_of(octets[24:40])}
    return fields, 40


def ip_fields(octets):
    """The fields of a header of IP, where it ends, and the size of the packet that it says."""
    need(is_whole(octets))
    return *(v4_fields if octets[0] >> 4 == 4 else v6_fields)(octets), size_of(octets)


def is_udp(fields):
    return fields["protocol"] == UDP and not fields.get("mf") and not fields.get("offset")


def raw_addresses(packet):
    return packet[12:20] if packet[0] >> 4 == 4 else packet[8:40]


def udp_fields(packet, at):
    """The fields of the UDP header at a place of a packet, and the size of the datagram that it says."""
    need(len(packet) >= at + 8)
    source, dest, said, checksum = struct.unpack_from(">HHHH", packet, at)
    state = "none"
    if checksum:
        total = ones_sum(raw_addresses(packet) + struct.pack(">IHH", said, 0, UDP) + packet[at:at + said])
        state = "right" if total == 0xFFFF else "wrong"
    return {"srcport": source, "dstport": dest, "checksum": state}, said


def named(layer, fields):
    """The fields of a layer by their whole names."""
    return {f"{layer}.{name}": value for name, value in fields.items()}
