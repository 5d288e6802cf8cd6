#!/usr/bin/env python3
"""Replays a capture without workers and with some, in rounds of several sizes, and prints the best run of each.

usage: workers.py PROGRAM FOLDER FRAMES RUNS | workers.py --write FOLDER FRAMES SEED
The folder has settings.toml and capture.pcap, and all kinds of runs go by turns. Of each kind it prints frames a
second, user and system time, the greatest memory, and the report's last line where that isn't the one without workers.
With --write it makes the two files: packets of 80 to 1,400 octets, made from a number, 10,000 a second, to one mapping; of
each hundred frames one is to an address that must be asked for, and from the 5,000th frame on one is the Map-Reply to
what was asked for 5,000 frames before, so that it is open also in the largest rounds.
"""
import os
import random
import struct
import sys

from measured import last_line, measured, tell_best
from packets import nonce_at, udp_packet

PLAIN, WORKERS, SIZES = "no workers ", (1, 2, 4), (64, 256, 4096)
START, STEP, BEHIND = 1_700_000_000, 100, 5_000
OWN, OTHER = bytes([192, 0, 2, 1]), bytes([198, 51, 100, 7])
SETTINGS = """resolver = "203.0.113.9"
[[locator]]
address = "192.0.2.1"
[[attachment]]
vlan = 0
iid = 0
[[database]]
iid = 0
prefix = "10.1.0.0/16"
[[mapping]]
iid = 0
prefix = "10.2.0.0/16"
[[mapping.locator]]
address = "198.51.100.7"
"""


# The files.


def asked(i):
    """The address that is asked for as the i-th."""
    return struct.pack(">I", (10 << 24 | 3 << 16) + i)


def reply(i):
    message = struct.pack(">IQ", 0x20000001, nonce_at([], bytes(32), i))
    record = struct.pack(">IBBHHH", 1440, 1, 32, 0x1000, 0, 1) + asked(i)
    locator = struct.pack(">BBBBHH", 1, 1, 255, 0, 1, 1) + OTHER
    return udp_packet(OTHER, OWN, (4342, 4342), message + record + locator, True)


def frames(count, seed):
    numbers, zeros = random.Random(seed), bytes(1400)
    for i in range(count):
        if i % 100 == 99 and i > BEHIND:
            yield reply((i - BEHIND) // 100)
            continue
        size, host, port = numbers.randint(80, 1400), numbers.randrange(65536), numbers.randrange(65536)
        source = bytes([10, 1]) + struct.pack(">H", host)
        dest = asked(i // 100) if i % 100 == 50 else bytes([10, 2, 0, 9])
        yield udp_packet(source, dest, (port, 2000), zeros[:size - 28], False)


def write(folder, count, seed):
    with open(f"{folder}/settings.toml", "w") as file:
        file.write(SETTINGS)
    with open(f"{folder}/capture.pcap", "wb") as file:
        file.write(struct.pack("<IHHIIII", 0xA1B2C3D4, 2, 4, 0, 0, 262144, 101))
        for i, octets in enumerate(frames(count, seed)):
            second, rest = divmod(i * STEP, 10**6)
            file.write(struct.pack("<IIII", START + second, rest, len(octets), len(octets)) + octets)


# The runs.


def choices():
    """The names of the ways in which it is replayed, and their words."""
    yield PLAIN, []
    for workers in WORKERS:
        for size in SIZES:
            yield f"{workers} by {size:5,} ", ["--workers", str(workers), "--round", str(size)]


def replay(program, folder, count, runs):
    front = [program, "replay", "--settings", f"{folder}/settings.toml", "--in", f"{folder}/capture.pcap",
             "--out", f"{folder}/out.pcap"]
    found, lines = {}, {}
    for _ in range(runs):
        for name, words in choices():
            found.setdefault(name, []).append(measured(f"{folder}/report", front + words))
            lines[name] = last_line(f"{folder}/report")
    tell_best(found, lines, PLAIN, count)


def main():
    if sys.argv[1] == "--write":
        write(sys.argv[2], int(sys.argv[3]), int(sys.argv[4]))
    else:
        replay(os.path.abspath(sys.argv[1]), sys.argv[2], int(sys.argv[3]), int(sys.argv[4]))


main()
