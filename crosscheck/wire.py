"""Octets in and out, written from the standards: headers of packets."""
import os
import struct


class Refused(Exception):
    """The first rule that fails: a layer, a place and a reason."""


def need(test, layer, place, why):
    if not test:
        raise Refused(f"{layer} {place} {why}")


def ones_sum(octets):
    octets += bytes(len(octets) % 2)
    total = sum(struct.unpack(f">{len(octets) // 2}H", octets))
    while total >> 16:
        total = (total & 0xFFFF) + (total >> 16)
    return total


def contents(path):
    """The octets of a file, none where it isn't there."""
    if not os.path.exists(path):
        return b""
    with open(path, "rb") as file:
        return file.read()


def existing(path):
    """The octets of a file, or None where it isn't there."""
    return contents(path) if os.path.exists(path) else None


def number(octets, at, size):
    return int.from_bytes(octets[at:at + size], "big")


def text_of(address):
    if len(address) == 4:
        return ".".join(map(str, address))
    return address.hex(":", 2)


# Headers.


def link_payload(link, frame):
    if link == 101:
        return 0, 0, frame
    need(len(frame) >= 14, "link", 0, "short")
    vlan, at = 0, 12
    if number(frame, 12, 2) == 0x8100:
        need(len(frame) >= 18, "link", 14, "short")
        vlan, at = number(frame, 14, 2) & 0xFFF, 16
    need(number(frame, at, 2) in (0x0800, 0x86DD), "link", at, "ethertype")
    return vlan, at + 2, frame[at + 2:]


class Packet:
    """Exactly one packet, by the rules of RFC 791 or RFC 8200."""

    def __init__(self, octets, base):
        need(len(octets) >= 1, "ip", base, "short")
        version = octets[0] >> 4
        need(version in (4, 6), "ip", base, "version")
        self.base = base
        if version == 4:
            need(len(octets) >= 20, "ip", base, "short")
            words = octets[0] & 15
            need(words >= 5, "ip", base, "header-length")
            self.at = 4 * words
            need(len(octets) >= self.at, "ip", base + 20, "short")
            total = number(octets, 2, 2)
            need(self.at <= total <= len(octets), "ip", base + 2, "total-length")
            need(ones_sum(octets[:self.at]) == 0xFFFF, "ip", base + 10, "checksum")
            self.octets = octets[:total]
            self.source, self.dest = octets[12:16], octets[16:20]
            self.protocol, self.ttl, self.tos = octets[9], octets[8], octets[1]
            self.fragment = number(octets, 6, 2) & 0x3FFF != 0
        else:
            need(len(octets) >= 40, "ip", base, "short")
            total = 40 + number(octets, 4, 2)
            need(total <= len(octets), "ip", base + 4, "total-length")
            self.at = 40
            self.octets = octets[:total]
            self.source, self.dest = octets[8:24], octets[24:40]
            self.protocol, self.ttl = octets[6], octets[7]
            self.tos = number(octets, 0, 2) >> 4 & 0xFF
            self.fragment = False

    def udp(self):
        """Ports, checksum, and the datagram with its header."""
        place = self.base + self.at
        need(len(self.octets) >= self.at + 8, "udp", place, "short")
        source, dest, length, checksum = struct.unpack(">HHHH", self.octets[self.at:self.at + 8])
        need(8 <= length <= len(self.octets) - self.at, "udp", place + 4, "udp-length")
        return source, dest, checksum, self.octets[self.at:self.at + length]

    def check(self, checksum, datagram, zero_allowed):
        pseudo = self.source + self.dest + struct.pack(">IHH", len(datagram), 0, 17)
        good = zero_allowed if checksum == 0 else ones_sum(pseudo + datagram) == 0xFFFF
        need(good, "udp", self.base + self.at + 6, "udp-checksum")

    def marked(self, tos, ttl):
        octets = bytearray(self.octets)
        if len(self.source) == 4:
            octets[1], octets[8], octets[10], octets[11] = tos, ttl, 0, 0
            octets[10:12] = struct.pack(">H", 0xFFFF - ones_sum(bytes(octets[:self.at])))
        else:
            octets[0:2] = struct.pack(">H", 6 << 12 | tos << 4 | octets[1] & 15)
            octets[7] = ttl
        return bytes(octets)


def ip_header(source, dest, size, ttl, tos=0):
    """The header of a packet that the router makes, with so many octets of UDP."""
    if len(dest) == 16:
        return struct.pack(">IHBB", 6 << 28 | tos << 20, size, 17, ttl) + source + dest
    front = struct.pack(">BBHHHBBH", 0x45, tos, 20 + size, 0, 0x4000, ttl, 17, 0) + source + dest
    return front[:10] + struct.pack(">H", 0xFFFF - ones_sum(front)) + front[12:]


def control_packet(source, dest, payload, port=4342):
    """A control message in UDP with its checksum, from port 4342 to a port."""
    size = 8 + len(payload)
    pseudo = source + dest + struct.pack(">IHH", size, 0, 17)
    front = struct.pack(">HHH", 4342, port, size)
    checksum = 0xFFFF - ones_sum(pseudo + front + bytes(2) + payload)
    return ip_header(source, dest, size, 64) + front + struct.pack(">H", checksum or 0xFFFF) + payload


def udp_packet(source, dest, ports, payload, summed):
    """An IPv4 packet with a UDP datagram, with a checksum where it is summed, else 0."""
    size = 8 + len(payload)
    udp = struct.pack(">HHHH", *ports, size, 0) + payload
    if summed:
        total = ones_sum(source + dest + struct.pack(">HH", 17, size) + udp)
        udp = udp[:6] + struct.pack(">H", (0xFFFF - total) or 0xFFFF) + payload
    front = struct.pack(">BBHHHBBH", 0x45, 0, 20 + size, 0, 0, 64, 17, 0) + source + dest
    return front[:10] + struct.pack(">H", 0xFFFF - ones_sum(front)) + front[12:] + udp
