"""Control messages (RFC 9301) and the EIDs in them (RFC 8060), read by rules in order."""
import struct
from typing import NamedTuple, Optional

from wire import Packet, need, number, text_of

# What messages hold.


class Eid(NamedTuple):
    """A prefix of an instance: the bits of its family, its address as a number, its length."""
    iid: int
    width: int
    address: int
    length: int

    @staticmethod
    def of(iid, address, length):
        width = 8 * len(address)
        value = int.from_bytes(address, "big")
        return Eid(iid, width, value >> width - length << width - length, length)

    @staticmethod
    def host(iid, address):
        return Eid.of(iid, address, 8 * len(address))

    def octets(self):
        return self.address.to_bytes(self.width // 8, "big")

    def covers(self, other):
        free = self.width - self.length
        return (self.iid == other.iid and self.width == other.width and self.length <= other.length
                and self.address >> free == other.address >> free)

    def __str__(self):
        return f"{self.iid} {text_of(self.octets())}/{self.length}"


class Locator(NamedTuple):
    address: bytes
    priority: int
    weight: int
    reachable: bool


class Record(NamedTuple):
    eid: Eid
    ttl: int
    action: int
    version: int
    locators: tuple


class Request(NamedTuple):
    nonce: int
    probe: bool
    solicit: bool
    source: Optional[Eid]
    replies_to: tuple
    eids: tuple


class Reply(NamedTuple):
    nonce: int
    probe: bool
    records: tuple


class Reading:
    """Octets of a message, taken one field after another; a place is where a field begins."""

    def __init__(self, octets, base):
        self.octets, self.base, self.at = octets, base, 0

    def place(self, at):
        return self.base + at

    def need(self, size):
        need(len(self.octets) >= self.at + size, "message", self.place(self.at), "short")

    def address(self, afi, at):
        size = {1: 4, 2: 16}[afi]
        need(len(self.octets) >= at + size, "message", self.place(at), "short")
        self.at = at + size
        return self.octets[at:at + size]

    def eid(self):
        """Instance and address, or nothing for AFI 0."""
        start = self.at
        self.need(2)
        afi = number(self.octets, start, 2)
        need(afi in (0, 1, 2, 16387), "message", self.place(start), "afi")
        if afi == 0:
            self.at += 2
            return None
        if afi != 16387:
            return 0, self.address(afi, start + 2)
        need(len(self.octets) >= start + 8, "message", self.place(start + 2), "short")
        need(self.octets[start + 4] == 2, "message", self.place(start + 4), "lcaf-type")
        need(len(self.octets) >= start + 14, "message", self.place(start + 8), "short")
        inner = number(self.octets, start + 12, 2)
        need(inner in (1, 2), "message", self.place(start + 12), "afi")
        length = 10 if inner == 1 else 22
        need(number(self.octets, start + 6, 2) == length, "message", self.place(start + 6), "lcaf-length")
        iid = number(self.octets, start + 8, 4)
        need(iid < 2**24, "message", self.place(start + 8), "instance-too-large")
        return iid, self.address(inner, start + 14)

    def prefix(self, mask, mask_at):
        start = self.at
        eid = self.eid()
        need(eid is not None, "message", self.place(start), "afi")
        need(mask <= 8 * len(eid[1]), "message", self.place(mask_at), "mask-length")
        return Eid.of(*eid, mask)

    def locator(self):
        self.need(8)
        priority, weight, _, _, flags, afi = struct.unpack(">BBBBHH", self.octets[self.at:self.at + 8])
        need(afi in (1, 2), "message", self.place(self.at + 6), "afi")
        return Locator(self.address(afi, self.at + 8), priority, weight, flags & 1 == 1)

    def record(self):
        start = self.at
        self.need(10)
        ttl, count, mask, flags, _, version = struct.unpack(">IBBBBH", self.octets[start:start + 10])
        self.at += 10
        eid = self.prefix(mask, start + 5)
        locators = tuple(self.locator() for _ in range(count))
        return Record(eid, ttl, flags >> 5, version & 0xFFF, locators)

    def reply_address(self):
        self.need(2)
        afi = number(self.octets, self.at, 2)
        need(afi in (1, 2), "message", self.place(self.at), "afi")
        return self.address(afi, self.at + 2)

    def asked(self):
        self.need(2)
        mask_at, mask = self.at + 1, self.octets[self.at + 1]
        self.at += 2
        return self.prefix(mask, mask_at)


def plain_message(octets, base):
    """A Map-Request or Map-Reply, and the number of octets consumed."""
    reading = Reading(octets, base)
    reading.need(4)
    kind, flags = octets[0] >> 4, octets[0] & 15
    need(kind in (1, 2), "message", base, "message-type")
    need(kind == 1 or not flags & 2, "message", base, "authenticated")
    need(len(octets) >= 12, "message", base + 4, "short")
    nonce = number(octets, 4, 8)
    reading.at = 12
    if kind == 2:
        records = tuple(reading.record() for _ in range(octets[3]))
        return Reply(nonce, flags & 8 == 8, records), reading.at
    source = reading.eid()
    replies_to = tuple(reading.reply_address() for _ in range((octets[2] & 31) + 1))
    eids = tuple(reading.asked() for _ in range(octets[3]))
    if flags & 4:
        reading.record()
    source = Eid.host(*source) if source else None
    return Request(nonce, flags & 2 == 2, flags & 1 == 1, source, replies_to, eids), reading.at


def message_of(octets, base):
    """The inner source port of a message that is encapsulated, or None; the message; the number of octets left."""
    if not octets or octets[0] >> 4 != 8:
        message, size = plain_message(octets, base)
        return None, message, len(octets) - size
    need(len(octets) >= 4, "message", base, "short")
    need(not octets[0] & 8, "message", base, "authenticated")
    packet = Packet(octets[4:], base + 4)
    need(packet.protocol == 17 and not packet.fragment, "message", base + 4, "inner-protocol")
    port, dest, checksum, datagram = packet.udp()
    need(dest == 4342, "message", base + 4 + packet.at + 2, "inner-port")
    packet.check(checksum, datagram, True)
    front = 4 + packet.at + 8
    message, size = plain_message(datagram[8:], base + front)
    return port, message, len(octets) - front - size
