"""Worked frames whose report depends on threads, and each way in which two workers and rounds of four frames may end.

Four misses are a round, and their request is written with its last frame. In the next one a Map-Reply comes amid three
packets: each of them is decided with both of its entries or with none. And ways in which rounds of seven may end where
packets come behind a Map-Reply that look like control messages, but are none.
"""
import itertools

from checksums import ip_summed
from limits import TEXTS, shared
from row_runs import SECOND, START, capture_of
from wire import udp_packet

WORKERS, SIZE = 2, 4
SETTINGS = TEXTS["tenant"]
REPLY, FREE = 6, (5, 7, 8)
# The frames, with their moments in milliseconds.
FRAMES = [(100 * i, shared("reply" if i + 1 == REPLY else "packet")) for i in range(8)]
MOMENTS = [at * SECOND // 1000 for at, _ in FRAMES]
CAPTURE = capture_of([(moment, octets) for moment, (_, octets) in zip(MOMENTS, FRAMES)])


def verdict(number, knowing):
    """A frame's number of entries and verdict, where some frames are decided with the reply."""
    if number == REPLY:
        return "n=1 control reply learned=1 passed=0"
    if number in knowing:
        return "n=3 encapsulated 192.0.2.1 198.51.100.7 64519"
    return f"n={int(number > SIZE)} drop 13 miss"


def end(knowing):
    """The status, report and output of that."""
    lines = [f"{number} {START // SECOND}.{moment:09} {verdict(number, knowing)}\n"
             for number, moment in enumerate(MOMENTS, 1)]
    sent = [(MOMENTS[SIZE - 1], shared("asked")), *((MOMENTS[number - 1], shared("sent_100")) for number in knowing)]
    return 0, "".join(lines) + f"end frames=8 written={len(sent)} entries=3\n", capture_of(sent)


def ends():
    return [end(knowing) for count in range(4) for knowing in itertools.combinations(FREE, count)]


# Packets that look like control messages.


def alike():
    """Packets to the router that are no control messages, and their verdicts."""
    peer, own = bytes([198, 51, 100, 7]), bytes([192, 0, 2, 1])
    message = udp_packet(peer, own, (4342, 4342), b"", True)

    def changed(place, octets):
        packet = bytearray(message)
        packet[place:place + len(octets)] = octets
        ip_summed(packet, 0)
        return bytes(packet)
    return [(changed(12, own), "own"), (changed(6, bytes([0x20])), "drop 3 fragment"),
            (changed(9, bytes([6])), "drop 2 not-tunnel"),
            (udp_packet(peer, own, (1000, 2000), b"", True), "drop 2 not-tunnel"),
            (changed(24, bytes([0, 9])), "drop 1 refused udp 24 udp-length")]


# A miss amid the router's own packets; and a Map-Reply, these packets, and the Map-Reply once more.
ALIKE_SIZE = 7
ALIKE_FRAMES = [(100 * i, octets) for i, octets in enumerate(
    [shared("packet"), *[shared("asked")] * 6, shared("reply"), *(octets for octets, _ in alike()), shared("reply")])]


def alike_end(numbers):
    """The status, report and output where these packets are decided by so many entries."""
    told = ["n=0 drop 13 miss", *["n=0 own"] * 6, "n=1 control reply learned=1 passed=0",
            *(f"n={n} {verdict}" for n, (_, verdict) in zip(numbers, alike())), "n=3 drop 21 unsolicited"]
    lines = [f"{i + 1} {START // SECOND + i // 10}.{i % 10}00000000 {one}\n" for i, one in enumerate(told)]
    sent = [((ALIKE_SIZE - 1) * SECOND // 10, shared("asked"))]
    return 0, "".join(lines) + f"end frames={len(told)} written=1 entries=3\n", capture_of(sent)


def alike_ends():
    return [alike_end(numbers) for numbers in itertools.product((1, 3), repeat=5)]
