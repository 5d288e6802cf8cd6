"""Captures in and out (pcap 2.4, of either byte order, with micro- or nanoseconds), as docs/REFERENCE.md says."""
import struct

# The units of a second and the nanoseconds of a unit, by the magic.
UNITS = {0xA1B2C3D4: (10**6, 1000), 0xA1B23C4D: (10**9, 1)}
MOST_OCTETS, MOST_SPAN = 262144, 10**6 * 10**9
MOST_RECORDS = 1_000_000_000


class CaptureFault(Exception):
    """A word, and the numbers behind it."""


def need(test, *fault):
    if not test:
        raise CaptureFault(" ".join(map(str, fault)))


def frames_of(path):
    """The frames of a file."""
    with open(path, "rb") as file:
        return frames_in(file.read())


def frames_in(octets):
    """The frames with their moments and the link layer. The header is judged at once, each record when it is due."""
    need(len(octets) >= 24, "cut-header", len(octets))
    order = next((order for order in "<>" if struct.unpack(order + "I", octets[:4])[0] in UNITS), None)
    need(order is not None, "bad-magic")
    magic, major, minor, _, _, _, link = struct.unpack(order + "IHHIIII", octets[:24])
    need((major, minor) == (2, 4), "bad-version")
    need(link & 0xFFFF in (1, 101), "bad-link")
    return records(octets, order, link & 0xFFFF, *UNITS[magic])


def records(octets, order, link, units, unit):
    at, count, latest = 24, 0, None
    while at < len(octets):
        count += 1
        need(count <= MOST_RECORDS, "too-many-records")
        need(at + 16 <= len(octets), "cut-record", at)
        seconds, fraction, kept, _ = struct.unpack(order + "IIII", octets[at:at + 16])
        need(fraction < units, "bad-fraction", at)
        need(kept <= MOST_OCTETS, "too-long", at, kept)
        need(at + 16 + kept <= len(octets), "cut-record", at)
        moment = seconds * 10**9 + fraction * unit
        need(latest is None or moment - latest <= MOST_SPAN, "span-too-long", count)
        latest = moment if latest is None else max(latest, moment)
        yield latest, link, octets[at + 16:at + 16 + kept]
        at += 16 + kept


def output_header():
    return struct.pack("<IHHIIII", 0xA1B23C4D, 2, 4, 0, 0, MOST_OCTETS, 101)


def output_record(moment, packet):
    return struct.pack("<IIII", moment // 10**9, moment % 10**9, len(packet), len(packet)) + packet
