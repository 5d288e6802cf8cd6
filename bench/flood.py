#!/usr/bin/env python3
"""Replays captures at a router's limits, and prints what that costs beside the same without a flood.

usage: flood.py PROGRAM FOLDER FRAMES RUNS | flood.py --write FOLDER FRAMES SEED
With --write it makes settings and captures in the folder. In limits.toml are 60,000 mappings; 310 of them name 9,920
locators that are probed and don't answer, and 4,096 a locator each that packets go to. flood.pcap learns 5,536 more,
and after 600 s has 9,600 probes, 4,096 echoes that are asked for, 4,096 that are wanted, 4,096 peers that were
solicited, and 1,024 open requests. behind.pcap has the same, and then so many packets to the 4,096, made from a number,
within 1.7 s; hostile.pcap has in their place frames that ask for more than the limits allow: misses, echoes that are
wanted, old versions, and replies that nobody asked for. quiet.toml has the 60,000 mappings alone, and quiet.pcap the
packets alone.

full.toml has 65,536 mappings. due.pcap has so many times 1,024 misses, a second in which all of their requests are due,
and a reply to each; in early.pcap the replies come before that second. probing.toml has the same mappings and probes
the 9,920 locators; probes.pcap has 600 seconds behind the first 600, in each of which 16 are probed. turns.toml has
50,000 mappings, and turns.pcap 100,000 misses, each with its reply, of a mapping that lasts a minute, so that 15,000
live at a time and each that is learned meets one that ends; records.pcap has the same in replies of 250 records. A
capture whose name ends in 0 is the front of another, whose time is taken off that one's.

Else it replays them, each the best of some runs that go by turns, by the time that they take of a processor.
"""
import os
import random
import struct
import sys

from measured import measured
from packets import nonce_at, udp_packet

START, SECOND = 1_700_000_000, 10**6
HEADER = struct.pack("<IHHIIII", 0xA1B2C3D4, 2, 4, 0, 0, 262144, 101)
OWN, OTHER, HOST = bytes([192, 0, 2, 1]), bytes([198, 51, 100, 7]), bytes([10, 1, 0, 5])
PROBED, NAMED, USED, STATIC = 9_920, 32, 4_096, 60_000
MOST_LIVE, MOST_OPEN, MOST_ECHOES, MOST_PROBES = 65_536, 1_024, 4_096, 9_600
RECORDS, AT_ONCE, GAP = 255, 16, 600
ROUNDS, STEP = 200, 3
BESIDE, TURNS, LIVING, MINUTE, IN_ONE = 50_000, 100_000, 15_000, 60, 250


# Addresses, settings and packets.


def number(front, i):
    """The address so many behind a prefix of 16 bits."""
    return bytes(front) + struct.pack(">H", i)


def probed(i):
    return number((198, 18), i)


def used(i):
    return number((203, 1), i)


def dest(i):
    return number((10, 2), i)


def text(address):
    return ".".join(map(str, address))


def mapping(eid, locators=()):
    return f'[[mapping]]\niid = 0\nprefix = "{text(eid)}/32"\n' + "".join(
        f'[[mapping.locator]]\naddress = "{text(locator)}"\n' for locator in locators)


def site(front=""):
    return (front + 'resolver = "203.0.113.9"\n[[locator]]\naddress = "192.0.2.1"\n[[attachment]]\nvlan = 0\niid = 0\n'
            '[[database]]\niid = 0\nprefix = "10.1.0.0/16"\nversion = 5\n')


def mappings(count):
    """So many: those that are probed, those that packets go to, and others without locators."""
    for i in range(0, PROBED, NAMED):
        yield mapping(number((10, 4), i), map(probed, range(i, i + NAMED)))
    for i in range(USED):
        yield mapping(dest(i), [used(i)])
    for i in range(count - PROBED // NAMED - USED):
        yield mapping(number((10, 8), i))


def packet(to, size=8):
    return udp_packet(HOST, to, (1000, 2000), bytes(size), False)


def reply(nonce, *records):
    """A Map-Reply with records: an address, a length, and the minutes that it lasts."""
    message = struct.pack(">IQ", 0x20000000 + len(records), nonce)
    for address, length, minutes in records:
        message += struct.pack(">IBBHHH", minutes, 1, length, 0x1000, 0, 1) + address
        message += struct.pack(">BBBBHH", 1, 1, 255, 0, 1, 1) + probed(0)
    return udp_packet(OTHER, OWN, (4342, 4342), message, True)


def arriving(source, inner, first):
    """A packet out of a tunnel, with that first half of its LISP header."""
    octets = udp_packet(inner, HOST, (2000, 1000), bytes(8), False)
    return udp_packet(source, OWN, (50000, 4341), struct.pack(">II", first, 0) + octets, False)


def wants_echo(source, i):
    return arriving(source, dest(i % USED), 0xA0000000 + i % 2**24)


def has_old_version(source):
    return arriving(source, number((10, 7), 0), 0x10000004)


def drawn(i):
    return nonce_at([], bytes(32), i)


def record(moment, octets):
    """A record of a capture, so many microseconds behind the start."""
    return struct.pack("<IIII", START + moment // SECOND, moment % SECOND, len(octets), len(octets)) + octets


def write(path, *parts):
    with open(path, "wb") as file:
        file.write(HEADER)
        for part in parts:
            file.writelines(record(*timed) for timed in part)


def write_text(path, parts):
    with open(path, "w") as file:
        file.writelines(parts)


# The captures at the limits.


def learned(count):
    """Misses and their replies, each with 24 bits and hosts in them, that learn so many."""
    for i in range(-(-count // RECORDS)):
        net = number((10, 5), 256 * i)
        hosts = [(net[:3] + bytes([j]), 32, 1440) for j in range(1, min(RECORDS, count - RECORDS * i))]
        yield 0, packet(net[:3] + bytes([1]))
        yield 0, reply(drawn(i), (net, 24, 1440), *hosts)


def flood():
    """What brings the router to its limits, until 600.9 s."""
    yield from learned(MOST_LIVE - STATIC)
    start = GAP * SECOND + SECOND // 2
    yield from ((start, packet(dest(i))) for i in range(USED))
    yield from ((start + SECOND // 10, packet(number((10, 6), i))) for i in range(MOST_OPEN))
    yield from ((start + SECOND // 5, wants_echo(used(i), i)) for i in range(MOST_ECHOES))
    yield from ((start + 3 * SECOND // 10, has_old_version(number((203, 2), i))) for i in range(MOST_ECHOES))


def spread(frames, count):
    """So many frames in 1.7 s behind the flood, within which no echo that is wanted ends."""
    start, span = GAP * SECOND + 9 * SECOND // 10, 17 * SECOND // 10
    return ((start + i * span // count, octets) for i, octets in enumerate(frames))


def data(count, seed):
    numbers = random.Random(seed)
    packets = [packet(dest(i), numbers.randint(52, 372)) for i in range(USED)]
    return (numbers.choice(packets) for _ in range(count))


def hostile(count):
    for i in range(count):
        source = number((203, 3 + i // 4 // 65_536 % 8), i // 4 % 65_536)
        yield (packet(number((10, 6), MOST_OPEN + i % 50_000)), wants_echo(source, i), has_old_version(source),
               reply(i, (dest(0), 32, 1440)))[i % 4]


def write_limits(folder, count, seed):
    write_text(f"{folder}/limits.toml", [site("probe = true\necho = true\n"), *mappings(STATIC)])
    write_text(f"{folder}/quiet.toml", [site(), *mappings(STATIC)])
    write(f"{folder}/flood0.pcap", flood())
    write(f"{folder}/behind.pcap", flood(), spread(data(count, seed), count))
    write(f"{folder}/hostile.pcap", flood(), spread(hostile(count), count))
    write(f"{folder}/quiet0.pcap")
    write(f"{folder}/quiet.pcap", spread(data(count, seed), count))


# Seconds in which all is due.


def rounds(is_due):
    """Misses half a second behind a second, and a reply to each, 1 s later or behind the next second but one."""
    for i in range(ROUNDS):
        start = STEP * i * SECOND + SECOND // 2
        yield from ((start, packet(number((10, 6), j))) for j in range(MOST_OPEN))
        moment = start + (2 if is_due else 1) * SECOND
        yield from ((moment, reply(drawn(MOST_OPEN * i + j), (number((10, 6), j), 32, 0))) for j in range(MOST_OPEN))


def write_due(folder):
    write_text(f"{folder}/full.toml", [site(), *mappings(MOST_LIVE)])
    write_text(f"{folder}/probing.toml", [site("probe = true\n"), *mappings(MOST_LIVE)])
    write(f"{folder}/early.pcap", rounds(False))
    write(f"{folder}/due.pcap", rounds(True))
    gap = [(0, packet(HOST)), (GAP * SECOND, packet(HOST))]
    write(f"{folder}/probes0.pcap", gap)
    write(f"{folder}/probes.pcap", gap, [(2 * GAP * SECOND, packet(HOST))])


# Mappings that are learned and end in turn.


def turns(order, at_once):
    """Misses, each with a reply of so many records, a minute's share of which live at a time."""
    for i in range(0, len(order), at_once):
        moment = i * MINUTE * SECOND // LIVING
        hosts = [struct.pack(">I", (11 << 24) + host) for host in order[i:i + at_once]]
        cover = [(bytes([11, 0, 0, 0]), 8, 0)] if at_once > 1 else []
        yield moment, packet(hosts[0])
        yield moment + 1, reply(drawn(i // at_once), *cover, *((host, 32, 1) for host in hosts))


def write_turns(folder, seed):
    order = list(range(TURNS))
    random.Random(seed).shuffle(order)
    write_text(f"{folder}/turns.toml", [site(), *mappings(BESIDE)])
    write(f"{folder}/turns0.pcap")
    write(f"{folder}/turns.pcap", turns(order, 1))
    write(f"{folder}/records.pcap", turns(order, IN_ONE))


# The runs.


PAIRS = [("limits", "flood0"), ("limits", "behind"), ("limits", "hostile"), ("quiet", "quiet0"), ("quiet", "quiet"),
         ("full", "early"), ("full", "due"), ("probing", "probes0"), ("probing", "probes"),
         ("turns", "turns0"), ("turns", "turns"), ("turns", "records")]


class Runs:
    """The least times of replays, of a processor, and the frames, packets and entries of their last lines."""

    def __init__(self, program, folder, count):
        self.program, self.folder, self.took, self.ends = program, folder, {}, {}
        for _ in range(count):
            for settings, capture in PAIRS:
                self.replay(settings, capture)

    def replay(self, settings, capture):
        words = ["replay", "--settings", f"{self.folder}/{settings}.toml", "--in", f"{self.folder}/{capture}.pcap",
                 "--out", f"{self.folder}/out.pcap"]
        run = measured(f"{self.folder}/report", [self.program, *words])
        took = run.user + run.system
        self.took[capture] = min(took, self.took.get(capture, took))
        self.ends[capture] = numbers(f"{self.folder}/report")

    def behind(self, capture, front):
        return self.took[capture] - self.took[front]


def numbers(path):
    with open(path, "rb") as file:
        file.seek(max(0, os.path.getsize(path) - 200))
        words = file.read().decode().splitlines()[-1].split()
    return {key: int(value) for key, _, value in (word.partition("=") for word in words[1:])}


def check(runs, capture, entries):
    """The journal is as long as it is at the limits, and no longer."""
    if runs.ends[capture]["entries"] != entries:
        sys.exit(f"{capture} ends with {runs.ends[capture]}, and not with {entries} entries")


def check_all(runs):
    replies = -(-(MOST_LIVE - STATIC) // RECORDS)
    full = MOST_LIVE + 2 * replies + MOST_PROBES + MOST_OPEN + 3 * MOST_ECHOES
    check(runs, "flood0", full)
    for capture in "behind", "hostile":
        check(runs, capture, full + MOST_OPEN + 2 * AT_ONCE)
    for capture, entries in ("early", 3), ("due", 4):
        check(runs, capture, MOST_LIVE + ROUNDS * entries * MOST_OPEN)
    check(runs, "probes", MOST_LIVE + 2 * GAP * AT_ONCE)
    check(runs, "turns", BESIDE + 3 * TURNS)
    check(runs, "records", BESIDE + TURNS + 3 * TURNS // IN_ONE)


def tell(name, text):
    print(f"  {name:<44} {text}")


def main():
    if sys.argv[1] == "--write":
        folder, count, seed = sys.argv[2], int(sys.argv[3]), int(sys.argv[4])
        write_limits(folder, count, seed)
        write_due(folder)
        write_turns(folder, seed)
        return
    count = int(sys.argv[3])
    runs = Runs(os.path.abspath(sys.argv[1]), sys.argv[2], int(sys.argv[4]))
    check_all(runs)
    quiet = runs.behind("quiet", "quiet0")
    tell("the packets without a flood", f"{count / quiet:,.0f} a second")
    for capture, name in ("behind", "the same at the limits"), ("hostile", "frames that ask for more at the limits"):
        took = runs.behind(capture, "flood0")
        tell(name, f"{count / took:,.0f} a second, {quiet / took:.2f} of that")
    requests, probes = runs.behind("due", "early") / ROUNDS, runs.behind("probes", "probes0") / GAP
    tell("1,024 requests that are due at a second", f"{1000 * requests:.2f} ms")
    tell("16 probes that are", f"{1000 * probes:.2f} ms")
    for capture, name in ("turns", "learned and ended, each asked for"), ("records", "the same, 250 in a reply"):
        tell(name, f"{TURNS / runs.behind(capture, 'turns0'):,.0f} mappings a second")


main()
