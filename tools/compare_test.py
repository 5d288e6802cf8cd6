#!/usr/bin/env python3
"""Holds `compare` against outputs of a program that are changed in a known way.

usage: compare_test.py PROGRAM [ROUNDS [SEED]]
Each packet of the examples' outputs is changed in one field after another, by the tables below, with its checksums made
right again: of each change that field alone must be named. Then come outputs in another order, with a packet left out,
one added, and one that is late; other nonces; the words that are refused; and as many captures made from a number as
there are rounds. It prints the count of each, and ends with status 1 where something differs.
"""
import os
import random
import struct
import subprocess
import sys
import tempfile

TOP = os.path.dirname(os.path.dirname(os.path.abspath(__file__)))
TOOLS, EXAMPLES = os.path.join(TOP, "tools"), os.path.join(TOP, "examples")
sys.dont_write_bytecode = True
sys.path[:0] = [os.path.join(TOOLS, "packets"), os.path.join(TOP, "crosscheck")]

from changes import changed, is_tunnel, summed_ip, turned  # noqa: E402
from compare import capture  # noqa: E402
from makers import settings  # noqa: E402
from partners import Partners, Sent  # noqa: E402
from telling import Tally  # noqa: E402

SECOND, START = 10**9, 1_700_000_000
# Outputs.


def records(path):
    """The moments and packets of an output."""
    with open(path, "rb") as file:
        octets, at = file.read(), 24
    while at < len(octets):
        seconds, rest, size, _ = struct.unpack("<IIII", octets[at:at + 16])
        yield seconds * SECOND + rest, octets[at + 16:at + 16 + size]
        at += 16 + size


def written(path, packets, link=101):
    with open(path, "wb") as file:
        file.write(struct.pack("<IHHIIII", 0xA1B23C4D, 2, 4, 0, 0, 262144, link))
        for moment, octets in packets:
            file.write(struct.pack("<IIII", moment // SECOND, moment % SECOND, len(octets), len(octets)) + octets)


def counted(due, sent, window=2 * SECOND):
    """The counts of a comparison of two lists of packets."""
    tally = Tally(set(), False, window)
    sides = (iter([Sent(i, *one) for i, one in enumerate(side, 1)]) for side in (due, sent))
    for pair in Partners(window).pairs(*sides):
        tally.take(*pair)
    tally.end()
    return dict(tally.counts)


def wrong(what, wanted, got):
    """Tells of what differs; how many things do."""
    if wanted != got:
        print(f"{what}\n  wanted {wanted}\n  got    {got}")
    return int(wanted != got)


# What is tried.


def try_fields(folder, program):
    """Each field of each packet of the examples' outputs changed alone."""
    tried = failed = 0
    for name in sorted(os.listdir(EXAMPLES)):
        due = list(records(os.path.join(EXAMPLES, name, "expected.pcap")))
        for place, (moment, octets) in enumerate(due):
            for field, other in changed(octets):
                sent = due[:place] + [(moment, other)] + due[place + 1:]
                failed += wrong(f"{name}, packet {place + 1}, {field}", {field: 1}, counted(due, sent))
                tried += 1
    return tried, failed


class Call:
    """A call of `compare` over an example: its status and lines, without the places."""

    def __init__(self, program, name, sent, *words, capture="capture.pcap", settings="settings.toml"):
        files = [os.path.join(EXAMPLES, name, file) for file in (settings, capture)]
        done = subprocess.run([sys.executable, "-B", os.path.join(TOOLS, "compare"), "--settings", files[0],
                               "--in", files[1], "--sent", sent, "--program", program, *words],
                              capture_output=True, text=True)
        self.status, self.said, self.lines = done.returncode, done.stderr, done.stdout.splitlines()

    def found(self):
        """The status, and the count of each field."""
        counts = dict(line.split(" ") for line in self.lines[1:] if not line.startswith(" "))
        return self.status, {field: int(count) for field, count in counts.items()}


def orders(name):
    """An example's output, and changes of the order of its packets with what must be found."""
    due = list(records(os.path.join(EXAMPLES, name, "expected.pcap")))
    moments = [moment for moment, _ in due]
    turned_round = list(zip(moments, reversed([octets for _, octets in due])))
    more = (due[1][0] + SECOND // 1000, summed_ip(turned(due[1][1], 15, 4), 0))
    late = due[1][0] + 3 * SECOND, due[1][1]
    behind = sorted([*due[:1], *due[2:], late], key=lambda packet: packet[0])
    turned_back = {"in an order that is another router's": (
        turned_round, ("--window", "60", "--like", "other-router"), (0, {}))} if name == "site" else {}
    return turned_back | {
        "as it is": (due, (), (0, {})),
        "in the other order": (turned_round, ("--window", "60"), (1, {"packet.order": len(due) - 1})),
        "in an order that is ignored": (turned_round, ("--window", "60", "--ignore", "packet.order"), (0, {})),
        "with one left out": (due[:1] + due[2:], (), (1, {"packet.missing": 1})),
        "with one added": (due[:2] + [more] + due[2:], (), (1, {"packet.extra": 1})),
        "with one late": (behind, (), (1, {"packet.missing": 1, "packet.extra": 1})),
        "with one late, in a wide window": (behind, ("--window", "4", "--ignore", "packet.order"), (0, {})),
    }


def try_orders(folder, program):
    """Outputs, none of which has a packet twice, in other orders, with a packet left out, added, or late."""
    tried = failed = 0
    for name in ("site", "limits"):
        for what, (packets, words, wanted) in orders(name).items():
            path = os.path.join(folder, "sent.pcap")
            written(path, packets)
            failed += wrong(f"{name}, {what}", wanted, Call(program, name, path, *words).found())
            tried += 1
    return tried, failed


def ng_written(path, packets):
    """A pcapng file in Ethernet frames with a tag, filled up, of a clock of nanoseconds; an ARP frame comes first."""
    def block(kind, octets):
        octets += bytes(-len(octets) % 4)
        return struct.pack("<II", kind, 12 + len(octets)) + octets + struct.pack("<I", 12 + len(octets))
    frames = [(START * SECOND, bytes(12) + b"\x08\x06" + bytes(46))]
    front = bytes(12) + b"\x81\x00\x00\x05\x08\x00"
    frames += [(moment, (front + octets).ljust(64, b"\0")) for moment, octets in packets]
    with open(path, "wb") as file:
        file.write(block(0x0A0D0D0A, struct.pack("<IHHq", 0x1A2B3C4D, 1, 0, -1)))
        file.write(block(1, struct.pack("<HHIHHIHH", 1, 0, 0, 9, 1, 9, 0, 0)))
        for moment, frame in frames:
            numbers = 0, moment >> 32, moment & 0xFFFFFFFF, len(frame), len(frame)
            file.write(block(6, struct.pack("<IIIII", *numbers) + frame))


def try_files(folder, program):
    """A pcapng file, another router's nonces, and what is refused."""
    def path(name):
        return os.path.join(folder, name)
    site, cache, limits = (list(records(os.path.join(EXAMPLES, name, "expected.pcap")))
                           for name in ("site", "cache", "limits"))
    ng_written(path("ng"), site)
    with open(os.path.join(EXAMPLES, "cache", "settings.toml")) as file:
        text = "".join(line for line in file if not line.startswith("nonces"))
    with open(path("theirs.toml"), "w") as file:
        file.write(text)
    ports = [summed_ip(turned(octets, 21, 1), 0) if is_tunnel(octets) else octets for _, octets in cache]
    written(path("ported"), [(moment, octets) for (moment, _), octets in zip(cache, ports)])
    asked = [octets for _, octets in limits[:2]]
    written(path("swapped"), [(moment, octets) for (moment, _), octets in zip(limits, asked[::-1])] + limits[2:])
    with open(path("gz"), "wb") as file:
        file.write(b"\x1f\x8b\x08\x00")
    theirs = {"settings": path("theirs.toml")}
    calls = {
        "pcapng": (Call(program, "site", path("ng")), (0, {})),
        "--in of pcapng": (
            Call(program, "ng", os.path.join(EXAMPLES, "ng", "expected.pcap"), capture="capture.pcapng"), (0, {})),
        "other nonces": (Call(program, "cache", path("ported"), **theirs),
                         (1, {"request.nonce": 1, "packet.extra": 1})),
        "other nonces, lifted": (Call(program, "cache", path("ported"), "--nonces", "sent", **theirs),
                                 (1, {"udp.srcport": 1})),
        "like another router": (Call(program, "cache", path("ported"), "--like", "other-router", **theirs), (0, {})),
        "nonces in another order": (Call(program, "limits", path("swapped"), "--like", "other-router"), (0, {})),
        "an unknown field": (Call(program, "site", path("ng"), "--ignore", "udp.srcprt"), (2, {})),
        "gzip": (Call(program, "site", path("gz")), (2, {})),
        "no file": (Call(program, "site", path("none")), (2, {})),
        "no settings": (Call(program, "site", path("ng"), settings="capture.pcap"), (2, {})),
    }
    failed = sum(wrong(f"{what}: {call.said}", wanted, call.found() if call.lines else (call.status, {}))
                 for what, (call, wanted) in calls.items())
    return len(calls), failed


def shuffled(numbers, packets):
    """Packets of one output within half a second of their moments, in another order; one that is left out."""
    kept = list(packets)
    left = kept.pop(numbers.randrange(len(kept))) if kept else None
    moved = [(moment + numbers.randrange(SECOND // 2), octets) for moment, octets in kept]
    return sorted(moved, key=lambda packet: packet[0]), left


def try_rounds(folder, program, rounds, seed):
    """Captures made from numbers: the output itself, and one in another order that lacks a packet."""
    failed = 0
    for number in range(rounds):
        numbers = random.Random(f"{seed} {number}")
        text, names = settings(numbers), [os.path.join(folder, name) for name in ("settings", "in", "out", "sent")]
        with open(names[0], "w") as file:
            file.write(text)
        capture(numbers, text, names[1])
        subprocess.run([program, "replay", "--settings", names[0], "--in", names[1], "--out", names[2]],
                       stdout=subprocess.DEVNULL)
        due = list(records(names[2])) if os.path.exists(names[2]) else []
        sent, left = shuffled(numbers, due)
        failed += wrong(f"seed {seed}, round {number}, as it is", {}, counted(due, due))
        counts = counted(due, sent)
        counts.pop("packet.order", None)
        failed += wrong(f"seed {seed}, round {number}, in another order", {"packet.missing": 1} if left else {}, counts)
    return 2 * rounds, failed


def main():
    words = sys.argv[1:]
    if not 1 <= len(words) <= 3:
        print("usage: compare_test.py PROGRAM [ROUNDS [SEED]]", file=sys.stderr)
        return 2
    program, numbers = os.path.abspath(words[0]), [int(word) for word in words[1:]]
    rounds, seed = numbers + [20, 1][len(numbers):]
    with tempfile.TemporaryDirectory() as folder:
        kinds = {"fields": try_fields(folder, program), "orders": try_orders(folder, program),
                 "files": try_files(folder, program), "captures": try_rounds(folder, program, rounds, seed)}
    for kind, (tried, failed) in kinds.items():
        print(f"{kind}: {tried} tried, {failed} differ")
    tried, failed = map(sum, zip(*kinds.values()))
    print(f"{tried} comparisons, {failed} differ")
    return int(failed > 0)


if __name__ == "__main__":
    sys.exit(main())
