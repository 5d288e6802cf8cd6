"""Captures in pcapng with a comment on each packet. All else that a file has stays as it is."""
import struct

from blocks import (END, ENHANCED, INTERFACE, NG, SECOND, SECTION, UNIT, blocks_of, classic_header, classic_records,
                    format_of, interface_of, ng_packets, padded)

COMMENT = 1
MAGIC, UNKNOWN_SIZE = 0x1A2B3C4D, -1
MOST_OCTETS, MOST_TIME = 65_000, 2**64 - 1


def block(order, kind, body):
    size = struct.pack(order + "I", 12 + len(body))
    return b"".join((struct.pack(order + "I", kind), size, body, size))


def option(order, code, value):
    return struct.pack(order + "HH", code, len(value)) + padded(value)


def comment_options(order, comment, others=b""):
    """A comment, and other options behind it, or the end of options where there are none."""
    return option(order, COMMENT, comment.encode()[:MOST_OCTETS]) + (others or bytes(4))


def packet_block(order, interface, time, octets, whole, options):
    kept = len(octets)
    size = 32 + kept + -kept % 4 + len(options)
    front = struct.pack(order + "IIIIIII", ENHANCED, size, interface, time >> 32, time & 0xFFFFFFFF, kept, whole)
    return b"".join((front, octets, bytes(-kept % 4), options, struct.pack(order + "I", size)))


def noted(kept, comment):
    """An enhanced packet block with one comment more, before its other options, which stay as they are."""
    size, = kept.numbers("I", 20)
    at, end = 28 + size + -size % 4, len(kept.octets) - 4
    return block(kept.order, ENHANCED, kept.octets[8:at] + comment_options(kept.order, comment, kept.octets[at:end]))


def enhanced(simple, packet, interface, comment):
    """An enhanced packet block in the place of a simple one, which can't have a comment: at the moment that it has.
    Where the clock of its interface doesn't come to that, the simple one stays."""
    time = min(max(0, (packet.moment - interface.added * SECOND) * interface.units // SECOND), MOST_TIME)
    if not 0 <= time * SECOND // interface.units + interface.added * SECOND <= packet.moment:
        return simple.octets
    whole, = simple.numbers("I")
    return packet_block(simple.order, 0, time, packet.octets, whole, comment_options(simple.order, comment))


def unsized(section):
    """A section header that doesn't say how long its section is."""
    octets = section.octets
    return octets[:16] + struct.pack(section.order + "q", UNKNOWN_SIZE) + octets[24:]


def copied(kept, packet, first, comment):
    """A block as it stands in the new file."""
    if kept.kind == SECTION:
        return unsized(kept)
    if packet is None or comment is None:
        return kept.octets
    return noted(kept, comment) if kept.kind == ENHANCED else enhanced(kept, packet, first, comment)


def ng_noted(front, file, comments):
    """The blocks of a pcapng file, with the comments that a call has for packets."""
    first = None
    for kept, packet in ng_packets(blocks_of(front, file)):
        if kept.kind == SECTION:
            first = None
        elif packet is None and first is None and kept.kind == INTERFACE:
            first = interface_of(kept)
        yield copied(kept, packet, first, comments(packet) if packet else None)


def classic_noted(front, file, comments):
    """The blocks of a pcapng file that has what a pcap file has."""
    header = classic_header(front, file)
    yield block("<", SECTION, struct.pack("<IHHq", MAGIC, 1, 0, UNKNOWN_SIZE))
    unit = option("<", UNIT, bytes([9 if header.unit == 1 else 6])) + option("<", END, b"")
    yield block("<", INTERFACE, struct.pack("<HHI", header.link, 0, header.snap) + unit)
    for packet, whole in classic_records(header, file):
        comment = comments(packet)
        options = b"" if comment is None else comment_options("<", comment)
        yield packet_block("<", 0, packet.moment // header.unit, packet.octets, whole, options)


def noted_capture(file, comments):
    """The blocks of a capture in pcapng; a call is given each packet, and has its comment or None."""
    front = file.read(4)
    format_of(front)
    return (ng_noted if front == NG else classic_noted)(front, file, comments)
