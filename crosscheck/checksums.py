"""Right checksums of changed packets, for rows that are made by loops."""
import struct

from wire import ones_sum


def put_sum(octets, place, *parts):
    """Puts the checksum over the parts, in which that at the place is 0."""
    octets[place:place + 2] = struct.pack(">H", 0xFFFF - ones_sum(b"".join(map(bytes, parts))))


def ip_summed(octets, start):
    """Renews the checksum of the IPv4 header of 20 octets there."""
    octets[start + 10:start + 12] = bytes(2)
    put_sum(octets, start + 10, octets[start:start + 20])


def udp_summed(octets, start):
    """Renews the checksum of the datagram behind the IPv4 header there, up to the end."""
    udp = start + 20
    octets[udp + 6:udp + 8] = bytes(2)
    pseudo = octets[start + 12:start + 20] + struct.pack(">HH", 17, len(octets) - udp)
    put_sum(octets, udp + 6, pseudo, octets[udp:])
