"""The blocks of a pcapng file, and the records of a pcap file, read one after another."""
import struct
from typing import NamedTuple

from pieces import Pieces

# The order of a pcap file's numbers and the nanoseconds of its unit of time, by its first four octets.
CLASSIC = {b"\xd4\xc3\xb2\xa1": ("<", 1000), b"\xa1\xb2\xc3\xd4": (">", 1000),
           b"\x4d\x3c\xb2\xa1": ("<", 1), b"\xa1\xb2\x3c\x4d": (">", 1)}
NG, GZIP = b"\x0a\x0d\x0d\x0a", b"\x1f\x8b"
SECTION, INTERFACE, OBSOLETE, SIMPLE, ENHANCED = 0x0A0D0D0A, 1, 2, 3, 6
MAGIC = b"\x1a\x2b\x3c\x4d"
# The least size of a block that is read, and the most octets of any, and of a packet.
LEAST = {SECTION: 28, INTERFACE: 20, SIMPLE: 16, ENHANCED: 32}
MOST_BLOCK, MOST_PACKET = 1 << 28, 262_144
UNIT, ADDED, END = 9, 14, 0
SECOND = 10**9


class Fault(Exception):
    """Why a capture can't be read, as a sentence."""


class Interface(NamedTuple):
    """A link layer, a snap length, how many units of time make a second, and the seconds that are added."""
    link: int
    snap: int
    units: int
    added: int


class Block(NamedTuple):
    """A whole block: its type, the order of its numbers, its octets, and the octet at which it begins."""
    kind: int
    order: str
    octets: bytes
    place: int

    def numbers(self, form, at=8):
        return struct.unpack_from(self.order + form, self.octets, at)


class Packet(NamedTuple):
    """A packet: its moment in nanoseconds, its link layer, the number of its interface, and its octets."""
    moment: int
    link: int
    interface: int
    octets: bytes


class Header(NamedTuple):
    """What the header of a pcap file says: the order of numbers, the nanoseconds of a unit, a snap length, a link."""
    order: str
    unit: int
    snap: int
    link: int


def padded(octets):
    return octets + bytes(-len(octets) % 4)


def need(test, sentence):
    if not test:
        raise Fault(sentence)


# pcap


def classic_header(front, file):
    """The header of a pcap file whose first four octets are read."""
    rest = file.read(20)
    need(len(rest) == 20, "it ends within its header")
    order, unit = CLASSIC[front]
    snap, link = struct.unpack(order + "II", rest[12:])
    return Header(order, unit, snap, link & 0xFFFF)


def classic_records(header, file):
    """The packets of a pcap file whose header is read, each with its size before it was cut."""
    take, numbers_of, place = Pieces(file).take, struct.Struct(header.order + "IIII").unpack, 24
    while front := take(16):
        if len(front) < 16:
            raise Fault(f"it ends within the record at octet {place}")
        seconds, fraction, kept, whole = numbers_of(front)
        if kept > MOST_PACKET:
            raise Fault(f"the record at octet {place} has {kept} octets, more than {MOST_PACKET:,}")
        octets = take(kept)
        if len(octets) < kept:
            raise Fault(f"it ends within the record at octet {place}")
        yield Packet(seconds * SECOND + fraction * header.unit, header.link, 0, octets), whole
        place += 16 + kept


# pcapng


def order_of(front, order, place):
    """The order of the numbers of a block, by the first twelve octets of a section."""
    if front[:4] != NG:
        need(order is not None, "it doesn't begin with a section header")
        return order
    need(front[8:12] in (MAGIC, MAGIC[::-1]), f"the section at octet {place} has no byte-order magic")
    return ">" if front[8:12] == MAGIC else "<"


def wrong_size(kind, size):
    """What is wrong with the size of a block, or nothing."""
    if size % 4 or size < LEAST.get(kind, 12):
        return "a wrong length"
    return f"{size} octets, more than {MOST_BLOCK:,}" if size > MOST_BLOCK else ""


def blocks_of(front, file):
    """The blocks of a pcapng file whose first four octets are read."""
    take, order, place, front = Pieces(file).take, None, 0, front + file.read(8)
    while front:
        if len(front) < 12:
            raise Fault(f"it ends within the block at octet {place}")
        order = order_of(front, order, place)
        kind, size = struct.unpack_from(order + "II", front)
        if why := wrong_size(kind, size):
            raise Fault(f"the block at octet {place} has {why}")
        octets = front + take(size - 12)
        if len(octets) < size:
            raise Fault(f"it ends within the block at octet {place}")
        if octets[-4:] != octets[4:8]:
            raise Fault(f"the block at octet {place} has two lengths")
        if kind == OBSOLETE:
            raise Fault(f"the block at octet {place} is an obsolete packet block; `editcap -F pcapng in out` writes others")
        yield Block(kind, order, octets, place)
        place, front = place + size, take(12)


def options_at(block, at):
    """Where each option of a block stands from a place on: its code, and the places of its value and of its end."""
    while at + 4 <= len(block.octets) - 4:
        code, size = block.numbers("HH", at)
        if code == END:
            return
        need(at + 4 + size <= len(block.octets) - 4, f"the block at octet {block.place} has an option that doesn't fit")
        yield code, at + 4, at + 4 + size
        at += 4 + size + -size % 4


def interface_of(block):
    link, _, snap = block.numbers("HHI")
    units, added = 10**6, 0
    for code, begin, end in options_at(block, 16):
        value = block.octets[begin:end]
        if code == UNIT and len(value) == 1:
            units = 2**(value[0] - 128) if value[0] >= 128 else 10**value[0]
        elif code == ADDED and len(value) == 8:
            added, = struct.unpack(block.order + "q", value)
    return Interface(link, snap, units, added)


def packet_of(block, interfaces, latest):
    """The packet of a packet block; a simple one has the latest moment before it."""
    number, high, low, size = block.numbers("IIII") if block.kind == ENHANCED else (0, 0, 0, 0)
    if number >= len(interfaces):
        raise Fault(f"the packet at octet {block.place} is of an interface that isn't there")
    link, snap, units, added = interfaces[number]
    if block.kind == ENHANCED:
        at, moment = 28, (high << 32 | low) * SECOND // units + added * SECOND
    else:
        whole, = block.numbers("I")
        at, moment, size = 12, latest, min(whole, snap or whole)
    if at + size > len(block.octets) - 4:
        raise Fault(f"the packet at octet {block.place} doesn't fit its block")
    return Packet(moment, link, number, block.octets[at:at + size])


def ng_packets(blocks):
    """Each block with its packet, or with None where it has none."""
    interfaces, latest = [], 0
    for block in blocks:
        packet = None
        if block.kind == SECTION:
            interfaces = []
        elif block.kind == INTERFACE:
            interfaces.append(interface_of(block))
        elif block.kind in (SIMPLE, ENHANCED):
            packet = packet_of(block, interfaces, latest)
            latest = max(latest, packet.moment)
        yield block, packet


# either


def format_of(front):
    """The program's word for the format of a file, by its first four octets."""
    need(front, "it is empty")
    need(front[:2] != GZIP, "it is in gzip; `gunzip -c FILE > FILE.pcap` opens it")
    need(front in CLASSIC or front == NG, "it is neither a pcap nor a pcapng file")
    return "ng" if front == NG else "classic"


def packets_of(file):
    """The packets of a capture of either format."""
    front = file.read(4)
    if format_of(front) == "ng":
        yield from (packet for _, packet in ng_packets(blocks_of(front, file)) if packet)
    else:
        yield from (packet for packet, _ in classic_records(classic_header(front, file), file))
