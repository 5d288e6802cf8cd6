"""Rows of pcapng files made by loops: one that is cut at each octet, and files at the limits of blocks and interfaces.

Their packets are those of shared.toml; what they must end with is worked out beside the blocks that make them.
"""
import struct
from typing import NamedTuple

from limits import TEXTS, shared
from makers_ng import block
from row_runs import REPLAY, SECOND, START, Row, Run, capture_of

NG, VLAN = f"{REPLAY} --format ng", f"{REPLAY} --format ng --interfaces vlan"
ENCAPSULATED = "encapsulated 192.0.2.1 198.51.100.7 64519"
MOST_BLOCK, MOST_OCTETS, MOST_INTERFACES = 2**20, 262144, 4095
# Octets of an option's value that needs no padding.
MOST_VALUE = 0xFFFC
ETHERNET, RAW = 1, 101
INTERFACE, SIMPLE, ENHANCED, STATISTICS = 1, 3, 6, 5


class Part(NamedTuple):
    """A block, and the frame that it becomes: its moment behind the start of all rows, and its verdict, or None."""
    octets: bytes
    frame: tuple = None


# Blocks, in either order.


def section(order, more=b""):
    return block(order, 0x0A0D0D0A, struct.pack(order + "IHHQ", 0x1A2B3C4D, 1, 0, 2**64 - 1) + more)


def interface(order, link=RAW, more=b""):
    return block(order, INTERFACE, struct.pack(order + "HHI", link, 0, MOST_OCTETS) + more)


def option(order, code, value):
    return struct.pack(order + "HH", code, len(value)) + value + bytes(-len(value) % 4)


def enhanced(order, octets, number=0, moment=0, more=b""):
    """A packet block of an interface that counts microseconds."""
    high, low = divmod((START + moment) // 1000, 2**32)
    fields = struct.pack(order + "IIIII", number, high, low, len(octets), len(octets))
    return block(order, ENHANCED, fields + octets + bytes(-len(octets) % 4) + more)


def simple(order, octets, more=b""):
    return block(order, SIMPLE, struct.pack(order + "I", len(octets)) + octets + bytes(-len(octets) % 4) + more)


def options_of_size(order, size):
    """Options that aren't read, of so many octets."""
    parts = []
    while size > 0:
        length = min(size - 4, MOST_VALUE)
        parts.append(option(order, 2, bytes(length)))
        size -= 4 + length
    return b"".join(parts)


def sent(octets, moment=0):
    """A frame that goes into a tunnel."""
    return Part(octets, (moment, ENCAPSULATED))


# Runs and rows.


def run(octets, frames, fault=None, words=NG, settings="site"):
    """A run over a file whose frames have moments and verdicts, and a fault at its end or none."""
    lines = [f"{i} {(START + moment) // SECOND}.{moment % SECOND:09} n=1 {verdict}\n"
             for i, (moment, verdict) in enumerate(frames, 1)]
    packets = [(moment, shared("sent")) for moment, verdict in frames if verdict == ENCAPSULATED]
    last = f"capture {fault}\n" if fault else f"end frames={len(frames)} written={len(packets)} entries=1\n"
    files = {"settings": TEXTS.get(settings, settings).encode(), "in": octets}
    return Run(words.split(), files, 3 if fault else 0, "".join(lines) + last, capture_of(packets))


def row(name, shows, *runs):
    return Row("limits_ng.py", name, shows, list(runs))


def of_parts(parts, fault=None, **how):
    return run(b"".join(part.octets for part in parts), [part.frame for part in parts if part.frame], fault, **how)


# A file that is cut.


def cut_runs(parts):
    """A run for each front of a file: between two blocks it ends there, else its last block is cut."""
    octets, place, begun = b"".join(part.octets for part in parts), 0, []
    for part in parts:
        for size in range(place, place + len(part.octets)):
            is_end = size == place > 0
            fault = None if is_end else f"cut-block {place}"
            yield run(octets[:size], [one.frame for one in begun if one.frame], fault)
        begun.append(part)
        place += len(part.octets)
    yield of_parts(parts)


def worked():
    return [Part(section("<")), Part(interface("<")), sent(enhanced("<", shared("packet")))]


def of_all_kinds():
    """A file of two sections, one in each order, with blocks of each kind that may be there."""
    packet, framed = shared("packet"), shared("ethernet") + shared("packet")
    unit = option(">", 9, b"\x06") + option(">", 14, bytes(8)) + option(">", 0, b"")
    return [
        Part(section(">", option(">", 4, b"a name"))), Part(interface(">", ETHERNET, unit)), Part(interface(">")),
        sent(enhanced(">", packet, 1)), Part(block(">", STATISTICS, bytes(12))), sent(simple(">", framed)),
        Part(section("<")), Part(interface("<")),
        sent(enhanced("<", packet, moment=SECOND, more=option("<", 1, b"so")), SECOND),
        sent(simple("<", packet), SECOND), Part(block("<", 0x0BAD, b""))]


def cuts():
    yield row("a worked pcapng file is cut at each octet",
              "Behind a block it ends well, but for the empty file; elsewhere the block is named that isn't whole.",
              *cut_runs(worked()))
    yield row("a pcapng file of blocks of all kinds is cut at each octet", "It has two sections, one in each order.",
              *cut_runs(of_all_kinds()))


# Limits.


def attached(vlan):
    """The site, where one VLAN alone is attached."""
    return TEXTS["site"].replace("vlan = 0", f"vlan = {vlan}")


def place_behind(parts):
    return sum(len(part.octets) for part in parts)


def most_interfaces():
    framed = shared("ethernet") + shared("packet")
    full = [Part(section("<"))] + [Part(interface("<", ETHERNET))] * MOST_INTERFACES
    last = sent(enhanced("<", framed, MOST_INTERFACES - 1))
    place = place_behind([*full, last])
    yield row("the most interfaces of a section", "A frame of the last of them, as of no VLAN, and of VLAN 4094.",
              of_parts([*full, last]), of_parts([*full, last], words=VLAN, settings=attached(MOST_INTERFACES - 1)))
    yield row("an interface more than a section may have", "The frame before it is done.",
              of_parts([*full, last, Part(interface("<"))], f"too-many-interfaces {place}"))
    yield row("an interface more, with a wrong option", "The option is judged first.",
              of_parts([*full, last, Part(interface("<", more=option("<", 9, b"")))], f"bad-option {place}"))
    yield row("a new section has room for as many interfaces", "It is of the other order.",
              of_parts([*full, Part(section(">"))] + [Part(interface(">"))] * MOST_INTERFACES
                       + [sent(enhanced(">", shared("packet"), MOST_INTERFACES - 1))]))


def longest_blocks():
    """Blocks of the most octets, in which options or padding fill what is left."""
    packet = shared("packet")
    parts = [
        Part(section("<", options_of_size("<", MOST_BLOCK - 28))),
        Part(interface("<", more=options_of_size("<", MOST_BLOCK - 20))),
        sent(enhanced("<", packet, more=options_of_size("<", MOST_BLOCK - 32 - len(packet)))),
        sent(simple("<", packet, bytes(MOST_BLOCK - 16 - len(packet)))),
        Part(block("<", STATISTICS, bytes(4 * MOST_BLOCK))), sent(enhanced("<", packet))]
    assert [len(part.octets) for part in parts[:4]] == [MOST_BLOCK] * 4
    yield row("the longest blocks that are read", "And one four times as long that is passed over.", of_parts(parts))
    more = [section("<", bytes(MOST_BLOCK - 24)), interface("<", more=bytes(MOST_BLOCK - 16)),
            enhanced("<", packet, more=bytes(MOST_BLOCK - 28 - len(packet))),
            simple("<", packet, bytes(MOST_BLOCK - 12 - len(packet)))]
    begun = worked()
    fault = f"too-long {place_behind(begun)} {MOST_BLOCK + 4}"
    yield row("four octets more than a block that is read may have", "Of each of the four types.",
              *(of_parts([*begun, Part(octets)], fault) for octets in more))


def longest_frames():
    raw, framed = shared("packet"), shared("ethernet") + shared("packet")
    begun = [Part(section("<")), Part(interface("<")), Part(interface("<", ETHERNET))]
    full = [sent(enhanced("<", raw.ljust(MOST_OCTETS, b"\0"))), sent(simple("<", raw.ljust(MOST_OCTETS, b"\0"))),
            sent(enhanced("<", framed.ljust(MOST_OCTETS, b"\0"), 1))]
    yield row("the longest frames of a pcapng file", "Raw ones, and one of Ethernet.", of_parts([*begun, *full]))
    yield row("the longest frame gets a tag besides", "It has four octets more than a file may keep of a frame.",
              of_parts([*begun, full[2]], words=VLAN, settings=attached(1)))
    long = raw.ljust(MOST_OCTETS + 1, b"\0")
    wide = Part(block("<", INTERFACE, struct.pack("<HHI", RAW, 0, 0)))
    parts = [begun[0], wide, sent(enhanced("<", raw))]
    fault = f"too-long {place_behind(parts)} {MOST_OCTETS + 1}"
    yield row("a frame of an octet more", "That is judged before its moment; in a simple packet too.",
              of_parts([*parts, Part(enhanced("<", long, moment=2**33 * SECOND))], fault),
              of_parts([*parts, Part(simple("<", long))], fault))


def rows():
    return [*cuts(), *most_interfaces(), *longest_blocks(), *longest_frames()]
