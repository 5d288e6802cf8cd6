"""Pcapng files made from a number: given frames, in sections, on interfaces, in blocks of all kinds; and faulty ones.

Such a file tells the frames and moments that it is made of, by clocks of any kind that are able to.
"""
import struct
from typing import NamedTuple

from captures_ng import (ADDED, ENHANCED, ETHERNET, INTERFACE, MAGIC, MOST_BLOCK, MOST_INTERFACES, MOST_OCTETS,
                         MOST_SPAN, OBSOLETE, RAW, SECOND, SECTION, SIMPLE, UNIT, tagged, units_of)

# Blocks to pass over: names, statistics, a bus, a journal, secrets, custom ones; and other options of interfaces.
OTHERS, OPTIONS = [4, 5, 7, 9, 10, 0xBAD, 0x40000BAD, 0x80000001, 0], [1, 2, 3, 8, 10, 11, 12, 13, 15, 2988, 0x8009]
UNITS = [None] * 10 + [6, 9] * 5 + [*range(20), *range(128, 192)]
SNAPS, LINKS = [0, 0, 0, 262144, 65535, 64, 1], [0, 105, 113, 127, 228, 229, 0x165]
EARLIER = [0, 1, 1000, SECOND, 86_400 * SECOND, 10**18]


# Blocks, with numbers in an order.


def block(order, kind, body):
    size = len(body) + 12
    return struct.pack(order + "II", kind, size) + body + struct.pack(order + "I", size)


def filled(r, octets):
    """With any octets up to the next place of four."""
    return octets + r.randbytes(-len(octets) % 4)


def option(r, order, code, value):
    return struct.pack(order + "HH", code, len(value)) + filled(r, value)


def any_options(r, order):
    return b"".join(option(r, order, r.choice(OPTIONS), r.randbytes(r.randrange(10)))
                    for _ in range(r.choice([0, 0, 1, 3])))


def options_end(r, order):
    """The end of options, or none, and what isn't read behind it."""
    end = struct.pack(order + "HH", 0, r.choice([0, 0, 0, 8, 0xFFFF]))
    return r.choice([b"", end, end, end + r.randbytes(4 * r.randrange(5))])


def section_block(r, order, magic=MAGIC, major=1):
    length = r.choice([2**64 - 1, 2**64 - 1, 0, r.randrange(2**64)])
    front = struct.pack(order + "IHHQ", magic, major, r.choice([0, 0, 2, 0xFFFF]), length)
    return block(order, SECTION, front + any_options(r, order) + options_end(r, order))


def interface_block(r, order, link, snap, options):
    return block(order, INTERFACE, struct.pack(order + "HHI", link, r.choice([0, 0xFFFF]), snap) + options)


def enhanced_block(r, order, number, time, octets, kept=None, options=b""):
    kept = len(octets) if kept is None else kept
    original = r.choice([kept, kept, 0, r.randrange(2**32)])
    front = struct.pack(order + "IIIII", number, time >> 32, time & 0xFFFFFFFF, kept, original)
    return block(order, ENHANCED, front + filled(r, octets) + options)


def simple_block(r, order, original, octets):
    return block(order, SIMPLE, struct.pack(order + "I", original) + filled(r, octets))


def other_block(r, order):
    return block(order, r.choice([*OTHERS, r.randrange(16, 2**31)]), r.randbytes(4 * r.choice([0, 1, 2, 5, 40])))


# Interfaces.


class Clock(NamedTuple):
    """The unit of time as its option has it, and the added seconds; both may be left out."""
    unit: int | None
    added: int | None

    def time_of(self, moment):
        """A time that is read as a moment, or None."""
        units = units_of(6 if self.unit is None else self.unit)
        since = moment - (self.added or 0) * SECOND
        time = -(-since * units // SECOND)
        return time if since >= 0 and time < 2**64 and time * SECOND // units == since else None

    def options(self, r, order):
        """Its options among others, at times behind others of their codes."""
        parts = [any_options(r, order)]
        if self.unit is not None:
            parts.insert(r.randrange(2), option(r, order, UNIT, bytes([self.unit])))
        if self.added is not None:
            parts.insert(r.randrange(3), option(r, order, ADDED, struct.pack(order + "q", self.added)))
        if self.unit is not None and r.random() < 0.1:
            parts.insert(0, option(r, order, UNIT, bytes([r.choice([0, 19, 128, 191])])))
        if self.added is not None and r.random() < 0.1:
            parts.insert(0, option(r, order, ADDED, r.randbytes(8)))
        return b"".join(parts) + options_end(r, order)


def clock_for(r, moment, choices=UNITS):
    """A clock that tells a moment, with one of some units."""
    second = moment // SECOND
    while True:
        added = r.choice([None, None, 0, 1, -1, second, second - r.randrange(100), -r.randrange(10**9), second + 1])
        clock = Clock(r.choice(choices), added)
        if clock.time_of(moment) is not None:
            return clock


class Interface(NamedTuple):
    link: int
    snap: int
    clock: Clock


# Files.


class Writer:
    """A file that is written frame by frame."""

    def __init__(self, r):
        self.r, self.blocks, self.latest = r, [], None
        # What is read: for each frame its moment, its interface's number, its link and its octets.
        self.read = []
        self.begin_section()

    def octets(self):
        return b"".join(self.blocks)

    def begin_section(self):
        self.order, self.interfaces = self.r.choice("<>"), []
        self.blocks.append(section_block(self.r, self.order))

    def add_interface(self, link, clock):
        one = Interface(link, self.r.choice(SNAPS), clock)
        self.interfaces.append(one)
        self.blocks.append(interface_block(self.r, self.order, link, one.snap, clock.options(self.r, self.order)))

    def clock(self, moment):
        """A clock that tells a moment."""
        return clock_for(self.r, moment)

    def packet_options(self):
        return any_options(self.r, self.order) + options_end(self.r, self.order) if self.r.random() < 0.2 else b""

    def add_between(self, moment):
        """Adds something before a frame, at times: a section, blocks to pass over, an interface of another link."""
        r = self.r
        if r.random() < 0.03:
            self.begin_section()
        for _ in range(r.choice([0] * 9 + [1, 2])):
            self.blocks.append(other_block(r, self.order))
        if r.random() < 0.02:
            self.add_interface(r.choice(LINKS), self.clock(moment))

    def add(self, moment, link, octets):
        """Adds a frame, whose moment isn't before that of the last one."""
        self.add_between(moment)
        number = self.add_simple(link, octets) if moment == self.latest and self.r.random() < 0.4 else None
        if number is None:
            number = self.add_enhanced(moment, link, octets)
        self.latest = moment
        self.read.append((moment, number, link, octets))

    def add_simple(self, link, octets):
        """Adds a simple packet, where the section's first interface is of that link and keeps so many octets."""
        first, size = self.interfaces[0] if self.interfaces else None, len(octets)
        if first is None or first.link != link or 0 < first.snap < size:
            return None
        original = self.r.randrange(size, 2**32) if size > 0 and first.snap == size else size
        self.blocks.append(simple_block(self.r, self.order, original, octets))
        return 0

    def add_enhanced(self, moment, link, octets):
        """Adds a packet with a time; one at the moment of the last one may have an earlier one."""
        if moment == self.latest:
            moment = max(0, moment - self.r.choice(EARLIER))
        number, time = self.told(moment, link)
        self.blocks.append(enhanced_block(self.r, self.order, number, time, octets, options=self.packet_options()))
        return number

    def told(self, moment, link):
        """An interface of a link that tells a moment, a new one if there is none, and the time that it tells."""
        times = [(i, one.clock.time_of(moment)) for i, one in enumerate(self.interfaces) if one.link == link]
        times = [(i, time) for i, time in times if time is not None]
        if times and self.r.random() < 0.95:
            return self.r.choice(times)
        self.add_interface(link, self.clock(moment))
        return len(self.interfaces) - 1, self.interfaces[-1].clock.time_of(moment)

    def frames(self, vlans):
        """What is read of the file, where interfaces are VLANs or aren't: moments, links and octets."""
        return [(moment, link, tagged(number, link, octets) if vlans else octets)
                for moment, number, link, octets in self.read]


def written(r, frames, kind=Writer):
    """A file of frames, given by their moments, links and octets."""
    writer = kind(r)
    for frame in frames:
        writer.add(*frame)
    return writer


# Faults.


class Faulty(Writer):
    """A file with blocks that are at fault, or just not."""

    def spoil(self):
        r = self.r
        add = r.choice([
            self.add_wrong_options, self.add_wrong_packet, self.add_wrong_packet, self.add_wrong_simple,
            self.add_wrong_section, self.add_obsolete, self.add_of_other_link, self.add_of_other_order, self.add_far,
            r.choice([self.add_many_interfaces, self.add_long])])
        add()

    def add_wrong_options(self):
        r, order = self.r, self.order
        codes = struct.pack(order + "HH", r.choice([1, UNIT, ADDED]), r.choice([1, 8, 9, 12, 13, 0xFFFF]))
        wrong = r.choice([
            option(r, order, UNIT, r.choice([b"", bytes(2), b"\x14", b"\x7f", b"\xc0", b"\xff", b"\x13", b"\xbf"])),
            option(r, order, ADDED, bytes(r.choice([0, 4, 7, 8, 9, 16]))), codes + bytes(r.choice([0, 4, 8])), codes])
        later = r.choice([b"", option(r, order, UNIT, b"\x06")])
        options = any_options(r, order) + wrong + later + options_end(r, order)
        self.blocks.append(interface_block(r, order, r.choice([ETHERNET, RAW]), 0, options))
        self.interfaces.append(Interface(RAW, 0, Clock(None, None)))

    def add_wrong_packet(self):
        """A packet of any interface, time and length."""
        r, count = self.r, len(self.interfaces)
        number = r.choice([count, count + 1, 2**32 - 1, *range(count)])
        time = r.choice([0, r.randrange(2**40), r.randrange(2**64), 2**64 - 1])
        octets = bytes(r.choice([0, 1, 4, 60]))
        kept = r.choice([len(octets), len(octets) + 1, len(octets) + 4, len(octets) + 5, 262145, 2**32 - 1])
        self.blocks.append(enhanced_block(r, self.order, number, time, octets, kept))

    def add_wrong_simple(self):
        octets = bytes(self.r.choice([0, 4, 60, 64, 65]))
        self.blocks.append(simple_block(self.r, self.order, self.r.choice([0, 1, 61, 66, 2**32 - 1]), octets))

    def add_wrong_section(self):
        r = self.r
        magic, major = r.choice([(MAGIC, 0), (MAGIC, 2), (MAGIC, 256), (MAGIC, 1), (MAGIC ^ 1, 1), (0, 0)])
        self.order, self.interfaces = r.choice("<>"), []
        self.blocks.append(section_block(r, self.order, magic, major))

    def add_obsolete(self):
        self.blocks.append(block(self.order, OBSOLETE, bytes(4 * self.r.choice([0, 5, 6]))))

    def add_of_other_link(self):
        self.add_interface(self.r.choice(LINKS), Clock(9, None))
        number = len(self.interfaces) - 1
        self.blocks.append(enhanced_block(self.r, self.order, number, self.r.randrange(2**64), bytes(20)))

    def add_far(self):
        """A packet at the end of the span, of all moments or of the time before 1970, or past it."""
        r, (link, *_) = self.r, self.interfaces[0] if self.interfaces else (RAW,)
        moment, added = r.choice([((self.latest or 0) + MOST_SPAN, 0), (2**32 * SECOND - 1, 0), (-1, -1), (-1, -2**63)])
        moment += r.choice([0, 1])
        self.add_interface(link, Clock(9, added))
        time = max(0, moment - added * SECOND) % 2**64
        self.blocks.append(enhanced_block(r, self.order, len(self.interfaces) - 1, time, bytes(20)))

    def add_of_other_order(self):
        r, other = self.r, ">" if self.order == "<" else "<"
        self.blocks.append(r.choice([other_block(r, other), enhanced_block(r, other, 0, 0, bytes(4))]))

    def add_many_interfaces(self):
        more = MOST_INTERFACES - len(self.interfaces) + self.r.choice([0, 1])
        self.blocks += [interface_block(self.r, self.order, RAW, 0, b"")] * more
        self.interfaces += [Interface(RAW, 0, Clock(None, None))] * more

    def add_long(self):
        """A block of the longest, or one that is longer; or a packet of the longest."""
        r, order = self.r, self.order
        size = MOST_BLOCK - 12 + r.choice([0, 4])
        self.blocks.append(r.choice([
            block(order, r.choice([INTERFACE, SIMPLE, ENHANCED, OBSOLETE, 5]), bytes(size)),
            enhanced_block(r, order, 0, 0, bytes(MOST_OCTETS + r.choice([0, 1])))]))


def respelled(r, blocks):
    """The octets of blocks of which one has another length, type or octet, or goes, or comes twice; or that are cut."""
    at = r.randrange(len(blocks))
    front, one, rest = blocks[:at], bytearray(blocks[at]), blocks[at + 1:]
    kind, order = r.randrange(7), r.choice("<>")
    if kind == 0:
        octets = b"".join(blocks)
        return octets[:r.choice([r.randrange(len(octets) + 1), len(b"".join(front)) + r.randrange(16)])]
    if kind in (1, 2):
        size = len(one)
        other = r.choice([0, 4, 8, 12, size - 4, size - 1, size + 1, size + 4, 2**20, 2**20 + 4, 2**32 - 4,
                          r.randrange(2**32)])
        place = 4 if kind == 1 else size - 4
        one[place:place + 4] = struct.pack(order + "I", other)
    elif kind == 3:
        one[:4] = struct.pack(order + "I", r.choice([0, 1, 2, 3, 5, 6, SECTION]))
    elif kind == 4:
        one[r.randrange(min(40, len(one)))] = r.randrange(256)
    elif kind == 5:
        one = b""
    else:
        rest = [bytes(one), *rest]
    return b"".join([*front, bytes(one), *rest])


def spoiled(r, frames):
    """The octets of a file of frames, at fault in one place or two, or in none; it may be without a section."""
    writer, frames = Faulty(r), list(frames)
    places = [r.randrange(len(frames) + 1) for _ in range(r.choice([0, 1, 1, 2]))]
    for place, frame in enumerate(frames):
        for _ in range(places.count(place)):
            writer.spoil()
        writer.add(*frame)
    return respelled(r, writer.blocks) if r.random() < 0.5 else writer.octets()
