"""Large packets made from a number, among what fits a router: of sizes around its limits, with options of all kinds."""
import struct

from makers import AWAY, HOMES, framed, host, packet, spoiled, tunnelled
from splitting import MOST_OFFSET, halves
from talk import SECOND, Talk
from wire import ones_sum

# Totals at the limits: of a tunnel over either family, of what goes into two, and of all packets.
SIZES = [1443, 1444, 1445, 1446, 1463, 1464, 1465, 1466, 1500, 2867, 2868, 2869, 2907, 2908, 2909, 2999, 9000, 65535]
# Types of options: those of each fragment, and of the first alone.
COPIED, FIRST = [0x82, 0x83, 0x88, 0x94, 0xFF], [0x07, 0x44, 0x52, 0x02]
# Frames of a capture, and seconds past the span of one.
FEW, BEHIND = 150, 1_000_003


def an_option(r):
    """An option that is well-formed, or the one of one octet."""
    if r.random() < 0.25:
        return b"\x01"
    size = r.choice([2, 3, 4, 7, 11])
    return bytes([r.choice(COPIED + FIRST), size]) + r.randbytes(size - 2)


def options(r):
    """The options of a header, mostly well-formed: none, some, the end and anything behind, or one that doesn't fit."""
    kind, octets = r.random(), b""
    if kind < 0.35:
        return b""
    for _ in range(r.choice([1, 1, 2, 3, 4, 8])):
        octets += an_option(r)
    octets = octets[:r.choice([40, 40, 40, r.randrange(41)])]
    if kind < 0.5:
        octets += bytes([r.choice([0, 0x83, 7]), r.choice([0, 1, 2, 4, 39, 200])])
    if kind > 0.9:
        octets += b"\0" + r.randbytes(r.randrange(8))
    octets += r.choice([b"\0", b"\1", b"\x83"]) * (-len(octets) % 4) if kind < 0.6 else bytes(-len(octets) % 4)
    return octets[:40]


def field(r, payload):
    """Flags and an offset: mostly none, at times at the last offset that the second half may have, or past it."""
    flags = r.choice([0] * 8 + [0x8000, 0x2000, 0xA000, 0x4000, 0x6000])
    most = max(0, MOST_OFFSET - -(-payload // 16))
    return flags | r.choice([0] * 6 + [185, r.randrange(MOST_OFFSET + 1), most, min(most + 1, MOST_OFFSET)])


def large(r, source, dest):
    """An IPv4 packet of about one of these totals, whose octets differ."""
    more, total = options(r), r.choice([*SIZES, r.randint(1400, 1600), r.randint(1400, 3100)])
    at = 20 + len(more)
    payload = r.randbytes(16) * (total // 16 + 1)
    payload = bytes(payload[:total - at - 2]) + r.randbytes(2)
    front = struct.pack(">BBHHHBBH", 0x40 | at // 4, r.choice([0, 0xB9]), total, r.randrange(65536),
                        field(r, len(payload)), r.choice([0, 1, 2, 64, 64, 255]), r.choice([17, 17, 6, 1, 253]), 0)
    front += source + dest + more
    return front[:10] + struct.pack(">H", 0xFFFF - ones_sum(front)) + front[12:] + payload


def any_large(r):
    """A large packet from and to anywhere, of IPv6, or in a tunnel."""
    kind, source, dest = r.randrange(4), host(r, HOMES + AWAY), host(r, HOMES + AWAY)
    if kind == 0:
        return tunnelled(r) + r.randbytes(1500)
    if kind == 1 or len(source) != len(dest) or len(source) == 16:
        source, dest = host(r, HOMES[4:]), host(r, AWAY[4:])
        return struct.pack(">IHBB", 6 << 28, r.choice([1404, 1405, 1460]), 17, 64) + source + dest + bytes(1460)
    return large(r, source, r.choice([dest, b"\xe0\0\0\5", b"\xff" * 4]))


class LargeTalk(Talk):
    """Frames of which many are large, beside a router that takes them split."""

    def leaving(self, eid):
        """A packet of the site, mostly a large one; its destination is that of an EID."""
        r, octets = self.r, super().leaving(eid)
        if eid.width == 128 or octets[0] >> 4 != 4 or r.random() < 0.2:
            return octets
        return spoiled(r, large(r, octets[12:16], octets[16:20]), 0.03)

    def destination(self):
        """Mostly something whose mapping has a locator that can be used."""
        usable = [mapping.eid for mapping in self.mapped() if self.router.usable(self.now, mapping)]
        return self.r.choice(usable) if usable and self.r.random() < 0.7 else super().destination()

    def arrived(self):
        return any_large(self.r) if self.r.random() < 0.1 else super().arrived()

    def tagged(self, octets):
        """A frame, at times with octets behind the packet."""
        return super().tagged(octets) + self.r.randbytes(self.r.choice([0, 0, 0, 1, 4, 18]))

    def take(self, frame):
        for one in halves(self.site, self.link, frame) or [frame]:
            super().take(one)


def frames(r, site, link, unit, size=1):
    """Frames that fit a router whose large packets are split; at times two are past the span behind them."""
    now = 0
    for now, octets in LargeTalk(r, site, link, unit, False, size).frames(FEW):
        yield now, octets
    if r.random() < 0.1:
        yield from ((now + BEHIND * SECOND, framed(r, link, packet(r))) for _ in range(2))
