"""Settings and a capture in which mappings are asked for, learned and used, of some hundred kilobytes."""
import struct

from limits import TEXTS, drawn, to
from row_runs import capture_of
from wire import udp_packet

BLOCKS, BLOCK, STEP = 20, 20, 5 * 10**6
SETTINGS = 'resolver = "203.0.113.9"\n' + TEXTS["site"]
OWN, OTHER = bytes([192, 0, 2, 1]), bytes([198, 51, 100, 7])


def reply(i):
    """The Map-Reply to the i-th request, for its address alone."""
    message = struct.pack(">IQ", 0x20000001, drawn(i))
    record = struct.pack(">IBBHHH", 1440, 1, 32, 0x1000, 0, 1) + asked(i)
    locator = struct.pack(">BBBBHH", 1, 1, 255, 0, 1, 1) + OTHER
    return udp_packet(OTHER, OWN, (4342, 4342), message + record + locator, True)


def asked(i):
    return bytes([10, 3, 0, i])


def frame(block, place):
    """A miss in each block, the reply to that two blocks before, and packets by mappings that were there or learned."""
    if place == 3:
        return to(asked(block))
    if place == 10 and block >= 2:
        return reply(block - 2)
    dest = asked(block - 3) if place > 14 and block >= 3 else bytes([10, 2, 0, 9])
    return udp_packet(bytes([10, 1, 0, place]), dest, (1000 + block, 2000), bytes(1300), False)


def capture():
    frames = [frame(block, place) for block in range(BLOCKS) for place in range(BLOCK)]
    return capture_of([(i * STEP, octets) for i, octets in enumerate(frames)])
