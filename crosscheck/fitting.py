"""Parts of frames made from a number so that they fit an EID, or what it lies in."""
import struct

from makers import AWAY, HOMES, MANY, OTHERS, OWN, host, ip, raw, shares, udp
from messages import Eid
from sending import eid_octets, located
from wire import ones_sum


def randomly(r, eid):
    """An address within an EID."""
    free = eid.width - eid.length
    return (eid.address | (r.getrandbits(free) if free else 0)).to_bytes(eid.width // 8, "big")


def shorter(r, eid):
    """An EID that covers it."""
    less = r.choice([0, 0, 0, 1, 2, 4, 8, 8, 8, 16, r.choice([24, eid.width - 16, eid.length])])
    return Eid.of(eid.iid, eid.octets(), max(0, eid.length - less))


def longer(r, eid):
    address = randomly(r, eid)
    return Eid.of(eid.iid, address, min(eid.width, eid.length + r.choice([0, 1, 8, 8, 16])))


def away(r, iid):
    return Eid.host(iid, host(r, AWAY + HOMES))


def named(r, eid):
    """An EID from its AFI on, with bits behind its mask, and now and then a needless list."""
    octets = eid_octets(eid.iid, randomly(r, eid))
    if eid.iid == 0 and r.random() < 0.1:
        return struct.pack(">HBBBBHI", 16387, r.randrange(256), 9, 2, 200, 4 + len(octets), 0) + octets
    return octets


def locators(r):
    """A count, and the octets of so many locators; of more than 32 the first ones are mostly down."""
    count = r.choice([0, 0, 1, 1, 2, 2, 3, 4, 5, 9, 32, 33, 40, 255])
    pool, octets = r.choice([OTHERS * 3 + OWN, OTHERS * 3 + OWN, MANY]), b""
    for i, (priority, weight) in enumerate(shares(r, count)):
        reachable = r.random() < (0.8 if count <= 9 else 0.2 if i < 32 else 0.9)
        octets += bytes([priority, weight]) + r.randbytes(2) + struct.pack(">H", r.randrange(1 << 15) << 1 | reachable)
        octets += located(raw(r.choice(pool)))
    return count, octets


def record(r, eid):
    ttl = r.choice([0, 0, 1, 1, 1, 1, 1, 1, 1, 1, 2, 60, 1440, 1441, 0xFFFFFFFE, 0xFFFFFFFF])
    if eid.width - eid.length > 16:
        ttl = r.choice([0, 0, 1])
    count, octets = locators(r)
    version = r.choice([0] * 7 + [1, 2, 3, 2048, 2049, 4095, r.randrange(4096)])
    front = struct.pack(">IBBHH", ttl, count, eid.length, r.randrange(1 << 16), r.randrange(16) << 12 | version)
    return front + named(r, eid) + octets


def plain_ip(r, source, dest, datagram):
    """A packet that is no fragment, where it isn't spoiled."""
    if r.random() < 0.05:
        return ip(r, source, dest, datagram)
    if len(source) == 16:
        return struct.pack(">IHBB", 6 << 28, len(datagram), 17, 64) + source + dest + datagram
    front = struct.pack(">BBHHHBBH", 0x45, 0, 20 + len(datagram), 0, 0, 64, 17, 0) + source + dest
    return front[:10] + struct.pack(">H", 0xFFFF - ones_sum(front)) + front[12:] + datagram


def summed(r, source, dest, message, ports):
    """A datagram, now and then without a checksum or with a wrong one."""
    datagram = udp(r, source, dest, message, ports, 1.0 if r.random() < 0.97 else 0.0)
    if r.random() < 0.03:
        datagram = datagram[:6] + r.randbytes(2) + datagram[8:]
    return datagram
