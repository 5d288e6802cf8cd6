"""Captures in the pcapng format, as docs/REFERENCE.md says: a file of blocks, some of which keep a frame.

A block is judged when it is due, and not before: no fault comes ahead of the frames before it.
"""
import functools
import struct
from typing import NamedTuple

import captures
from captures import MOST_OCTETS, MOST_RECORDS, MOST_SPAN, need
from commands import Format

SECTION, INTERFACE, OBSOLETE, SIMPLE, ENHANCED = 0x0A0D0D0A, 1, 2, 3, 6
PACKETS = SIMPLE, ENHANCED
# The least total length of the blocks that are read, in fours of octets; other blocks are passed over.
LEAST, LEAST_OTHER = {SECTION: 7, INTERFACE: 5, SIMPLE: 4, ENHANCED: 8}, 3
MAGIC, ORDERS = 0x1A2B3C4D, ("little", "big")
MOST_BLOCK, MOST_INTERFACES = 2**20, 4095
MOST_BLOCKS = 4_000_000_000
# Codes of options, and the largest exponents of a unit of time.
UNIT, ADDED, MOST_DECIMAL, MOST_BINARY = 9, 14, 19, 63
ETHERNET, RAW, TAG = 1, 101, 0x8100
SECOND, END_OF_MOMENTS = 10**9, 2**32 * 10**9


class Interface(NamedTuple):
    """The link layer, the snap length, how many units of time make a second, and the seconds that are added."""
    link: int
    snap: int
    units: int
    added: int


class Block(NamedTuple):
    """A whole block, the place where it begins, and the order of its numbers."""
    place: int
    kind: int
    order: str
    octets: bytes

    def number(self, at, size):
        return int.from_bytes(self.octets[at:at + size], self.order)

    @property
    def end(self):
        """Where its second length begins."""
        return len(self.octets) - 4

    def need(self, test, word, *numbers):
        need(test, word, self.place, *numbers)


class Packet(NamedTuple):
    """What a packet block says: the number of its interface, its place and size in the block, and its moment."""
    interface: int
    at: int
    size: int
    moment: int


def order_of(magic):
    """The order of octets in which a byte-order magic is right, or None."""
    return next((order for order in ORDERS if int.from_bytes(magic, order) == MAGIC), None)


# Interfaces.


def options_of(block):
    """The options of an interface, each a code and its value."""
    at = 16
    while at < block.end and block.number(at, 2) != 0:
        code, size = block.number(at, 2), block.number(at + 2, 2)
        block.need(at + 4 + size <= block.end, "bad-option")
        yield code, block.octets[at + 4:at + 4 + size]
        at += 4 + size + -size % 4


def units_of(value):
    """How many units of time make a second, or None where the octet names none."""
    base, exponent, most = (2, value - 128, MOST_BINARY) if value >= 128 else (10, value, MOST_DECIMAL)
    return base**exponent if exponent <= most else None


def interface_of(block):
    units, added = 10**6, 0
    for code, value in options_of(block):
        if code == UNIT:
            units = units_of(*value) if len(value) == 1 else None
            block.need(units is not None, "bad-option")
        elif code == ADDED:
            block.need(len(value) == 8, "bad-option")
            added = int.from_bytes(value, block.order, signed=True)
    return Interface(block.number(8, 2), block.number(12, 4), units, added)


# Packets.


def number_of(block):
    """The number of a packet's interface; a simple packet names none."""
    return block.number(8, 4) if block.kind == ENHANCED else 0


def packet_of(block, number, interface, latest):
    """A packet of an interface; a simple one has the latest moment so far."""
    if block.kind == SIMPLE:
        original = block.number(8, 4)
        return Packet(number, 12, min(original, interface.snap or original), latest or 0)
    time = block.number(12, 4) << 32 | block.number(16, 4)
    return Packet(number, 28, block.number(20, 4), time * SECOND // interface.units + interface.added * SECOND)


def tagged(number, link, octets):
    """An untagged Ethernet frame of an interface but the first one, with the interface's number as its VLAN."""
    if number == 0 or link != ETHERNET or len(octets) < 14 or octets[12:14] == TAG.to_bytes(2, "big"):
        return octets
    return octets[:12] + struct.pack(">HH", TAG, number) + octets[12:]


# Files.


class Reader:
    """A file that is read block by block; with VLANs the interfaces but the first one of a section are such."""

    def __init__(self, octets, vlans):
        self.octets, self.vlans = octets, vlans
        self.order, self.interfaces = None, []
        self.blocks, self.count, self.latest = 0, 0, None

    def frames(self):
        """The frames with their moments and their link layers."""
        at = 0
        while at < len(self.octets) or self.order is None:
            block = self.block_at(at)
            if block.kind == SECTION:
                self.begin_section(block)
            elif block.kind == INTERFACE:
                self.add_interface(block)
            elif block.kind in PACKETS:
                yield self.frame_of(block)
            at += len(block.octets)

    def block_at(self, at):
        """The block that begins at a place, which is whole and isn't obsolete."""
        kind, order = self.front_at(at)
        size = int.from_bytes(self.octets[at + 4:at + 8], order)
        need(size % 4 == 0 and size // 4 >= LEAST.get(kind, LEAST_OTHER), "bad-length", at)
        need(kind not in LEAST or size <= MOST_BLOCK, "too-long", at, size)
        block = Block(at, kind, order, self.octets[at:at + size])
        block.need(len(block.octets) == size, "cut-block")
        block.need(block.octets[block.end:] == block.octets[4:8], "bad-length")
        block.need(kind != OBSOLETE, "old-packet")
        self.blocks += 1
        return block

    def front_at(self, at):
        """The type of the block at a place, and the order of its numbers."""
        front = self.octets[at:at + 12]
        kind = int.from_bytes(front[:4], self.order or "little")
        is_packet = len(front) >= 4 and kind in PACKETS
        is_one_more = self.blocks == MOST_BLOCKS and front or self.count == MOST_RECORDS and is_packet
        need(not is_one_more, "too-many-records")
        need(len(front) >= 8, "cut-block", at)
        if kind != SECTION:
            need(self.order is not None, "bad-magic")
            return kind, self.order
        need(len(front) == 12, "cut-block", at)
        order = order_of(front[8:])
        need(order is not None, "bad-magic")
        return kind, order

    def begin_section(self, block):
        block.need(block.number(12, 2) == 1, "bad-version")
        self.order, self.interfaces = block.order, []

    def add_interface(self, block):
        interface = interface_of(block)
        block.need(len(self.interfaces) < MOST_INTERFACES, "too-many-interfaces")
        self.interfaces.append(interface)

    def frame_of(self, block):
        number = number_of(block)
        block.need(number < len(self.interfaces), "bad-interface")
        interface = self.interfaces[number]
        block.need(interface.link in (ETHERNET, RAW), "bad-link-type")
        packet = packet_of(block, number, interface, self.latest)
        block.need(packet.at + packet.size <= block.end, "bad-length")
        block.need(packet.size <= MOST_OCTETS, "too-long", packet.size)
        block.need(0 <= packet.moment < END_OF_MOMENTS, "bad-moment")
        self.come_to(packet.moment)
        octets = block.octets[packet.at:packet.at + packet.size]
        return self.latest, interface.link, tagged(number, interface.link, octets) if self.vlans else octets

    def come_to(self, moment):
        """One frame more, at a moment; an earlier one counts as the latest so far."""
        self.count += 1
        need(self.latest is None or moment - self.latest <= MOST_SPAN, "span-too-long", self.count)
        self.latest = moment if self.latest is None else max(self.latest, moment)


def frames_of(path, vlans):
    """The frames with their moments and link layers. Nothing is judged before the first one is asked for."""
    with open(path, "rb") as file:
        octets = file.read()
    return Reader(octets, vlans).frames()


def reader_of(format):
    """What reads a capture of a format."""
    if format is Format.CLASSIC:
        return captures.frames_of
    return functools.partial(frames_of, vlans=format is Format.NG_VLANS)
