#!/usr/bin/env python3
"""Writes settings and a capture of all that a router meets, mixed, made from a number.

usage: mixed.py PROGRAM FOLDER FRAMES SEED MAPPINGS | mixed.py --run FOLDER FRAMES RUNS NAME=PROGRAM..
There is a frame every 500 us. Of 20, on the average, 10 are packets of 80 to 1,400 octets into tunnels, to mappings of
the settings and to learned ones; 5 come out of tunnels (some want an echo, some tell an old version of the site); 1 is
to a destination that must be asked for; 1 is a Map-Request; 3 are to a multicast group, to the site itself, or refused.
The 64 locators that mappings have are probed. Between these frames come the Map-Replies to requests and probes, with
the nonces that the program draws: it replays the frames without them first. It prints how many frames there are. With
--run it replays the capture by each program, by turns, and prints the best run of each, and of how many frames there
is which verdict.
"""
import collections
import random
import struct
import subprocess
import sys

from measured import last_line, measured, tell_best
from packets import udp_packet

START, STEP, LATER, LOCATORS = 1_700_000_000, 500, 300_000, 64
OWN, RESOLVER, OTHER = bytes([192, 0, 2, 1]), bytes([203, 0, 113, 9]), bytes([203, 0, 113, 77])
HEADER = struct.pack("<IHHIIII", 0xA1B2C3D4, 2, 4, 0, 0, 262144, 101)
SITE = ('resolver = "203.0.113.9"\nprobe = true\n[[locator]]\naddress = "192.0.2.1"\n'
        '[[attachment]]\nvlan = 0\niid = 0\n[[database]]\niid = 0\nprefix = "10.1.0.0/16"\nversion = 5\n')
VERSIONS, ECHO, OLD = 0x10000000, 0xA0000000, 0x10000004
ANSWERED, PROBED, CONTROL_PORT = 0x20000001, 0x28000001, b"\x10\xf6"


# Addresses, settings and packets.


def locator(i):
    return bytes([198, 18, 0, i % LOCATORS])


def host(i):
    return bytes([10, 1]) + struct.pack(">H", i)


def mapped(i):
    """A destination of the settings' mapping so many."""
    return bytes([10]) + struct.pack(">I", (2 << 16) + i)[1:]


def asked(i):
    """The destination that is asked for as the i-th."""
    return bytes([11]) + struct.pack(">I", i)[1:]


def text(address):
    return ".".join(map(str, address))


def mapping(i):
    return f'[[mapping]]\niid = 0\nprefix = "{text(mapped(i))}/32"\n' + "".join(
        f'[[mapping.locator]]\naddress = "{text(locator(j))}"\npriority = {1 + j % 2}\n' for j in (i, i + 1))


def leaving(numbers, dest):
    size = numbers.randint(80, 1400)
    return udp_packet(host(numbers.randrange(65536)), dest, (numbers.randrange(65536), 2000), bytes(size - 28), False)


def arriving(numbers, mappings):
    """Out of a tunnel, with versions, an old one of the site, or a nonce that wants an echo."""
    i, size = numbers.randrange(mappings), numbers.randint(80, 1400)
    first = (VERSIONS | 5, OLD, ECHO | numbers.randrange(2**24))[numbers.choice((0, 0, 0, 0, 1, 2))]
    inner = udp_packet(mapped(i), host(numbers.randrange(65536)), (2000, 1000), bytes(size - 64), False)
    return udp_packet(locator(i), OWN, (50000, 4341), struct.pack(">II", first, 0) + inner, False)


def request(numbers):
    """A Map-Request for a prefix of the site."""
    message = struct.pack(">IQHHBBH", 0x10000001, numbers.randrange(2**64), 0, 1, 0, 0, 0)[:-4]
    message += OTHER + struct.pack(">BBH", 0, 32, 1) + host(numbers.randrange(65536))
    return udp_packet(OTHER, OWN, (4342, 4342), message, True)


def other(numbers):
    """To a group, to the site itself, or an IPv4 header whose checksum is wrong."""
    kind = numbers.randrange(3)
    octets = leaving(numbers, (bytes([224, 0, 0, 9]), host(9), mapped(0))[kind])
    return octets[:10] + bytes(2) + octets[12:] if kind == 2 else octets


def reply(first, source, nonce, eid, named):
    """A Map-Reply, with one mapping of one locator."""
    message = struct.pack(">IQIBBHHH", first, nonce, 1440, 1, 32, 0x1000, 0, 1) + eid
    message += struct.pack(">BBBBHH", 1, 1, 255, 0, 7 if first == PROBED else 1, 1) + named
    return udp_packet(source, OWN, (4342, 4342), message, True)


# The frames, and what is answered to what the router sends.


def frames(count, seed, mappings, learned):
    """The moment of each frame, in microseconds behind the start, and the frame. Where `learned` says so of a moment, some
    packets are to destinations that were asked for long before it. Which numbers are taken doesn't depend on that."""
    numbers, misses = random.Random(seed), 0
    for i in range(count):
        kind = numbers.randrange(20)
        if kind < 10:
            known, at = numbers.randrange(2) and learned(i * STEP), numbers.random()
            octets = leaving(numbers, asked(int(at * max(1, misses - 1_000))) if known else mapped(int(at * mappings)))
        elif kind < 15:
            octets = arriving(numbers, mappings)
        elif kind < 16:
            octets = leaving(numbers, asked(misses))
            misses += 1
        elif kind < 17:
            octets = request(numbers)
        else:
            octets = other(numbers)
        yield i * STEP, octets


def record(moment, octets):
    head = START + moment // 10**6, moment % 10**6, len(octets), len(octets)
    return struct.pack("<IIII", *head) + octets


def sent(path):
    """The packets of an output: microseconds behind the start, and octets."""
    with open(path, "rb") as file:
        file.seek(24)
        while head := file.read(16):
            second, rest, size, _ = struct.unpack("<IIII", head)
            yield (second - START) * 10**6 + rest // 1000, file.read(size)


def answers(path):
    """The Map-Reply to each request as it is first sent, and to each probe, in order of time."""
    seen = set()
    for moment, octets in sent(path):
        message, to = octets[28:], octets[16:20]
        if octets[22:24] != CONTROL_PORT:
            continue
        if message[0] >> 4 == 8:
            nonce, dest = int.from_bytes(message[36:44], "big"), message[20:24]
            if nonce not in seen:
                seen.add(nonce)
                yield moment + LATER, reply(ANSWERED, OTHER, nonce, dest, locator(nonce))
        elif message[0] >> 4 == 1 and message[0] & 2:
            nonce = int.from_bytes(message[4:12], "big")
            yield moment + LATER, reply(PROBED, to, nonce, mapped(0), to)


def write(path, parts):
    count = 0
    with open(path, "wb") as file:
        file.write(HEADER)
        for part in parts:
            file.write(record(*part))
            count += 1
    return count


def merged(some, others):
    """Both in order of time."""
    others = iter(others)
    ahead = next(others, None)
    for part in some:
        while ahead and ahead[0] <= part[0]:
            yield ahead
            ahead = next(others, None)
        yield part


def make(program, folder, count, seed, mappings):
    with open(f"{folder}/settings.toml", "w") as file:
        file.write(SITE + "".join(map(mapping, range(mappings))))
    capture = f"{folder}/capture.pcap"
    write(capture, frames(count, seed, mappings, lambda _: False))
    subprocess.run(words(program, folder), stdout=subprocess.DEVNULL, check=True)
    answered = sorted(answers(f"{folder}/out.pcap"))
    print(write(capture, merged(frames(count, seed, mappings, lambda moment: moment > 10**6), answered)))


# The runs.


def words(program, folder):
    return [program, "replay", "--settings", f"{folder}/settings.toml", "--in", f"{folder}/capture.pcap",
            "--out", f"{folder}/out.pcap"]


def verdict(line):
    """The verdict of a frame's line, and of a drop or a message which."""
    word, *rest = line.split()[3:]
    return f"{word} {rest[{'drop': 1, 'control': 0}[word]]}" if word in ("drop", "control") else word


def verdicts(report):
    """How many frames have each verdict, the most frequent first."""
    with open(report) as file:
        counts = collections.Counter(verdict(line) for line in file if " n=" in line)
    return ", ".join(f"{name} {count}" for name, count in counts.most_common())


def main():
    if sys.argv[1] != "--run":
        program, folder, *numbers = sys.argv[1:]
        return make(program, folder, *map(int, numbers))
    folder, count, runs, *programs = sys.argv[2:]
    named = [program.partition("=")[::2] for program in programs]
    report, found, lines = f"{folder}/report", {name: [] for name, _ in named}, {}
    for _ in range(int(runs)):
        for name, program in named:
            found[name].append(measured(report, words(program, folder)))
            lines[name] = last_line(report)
    tell_best(found, lines, named[0][0], count)
    print(f"    {verdicts(report)}")


if __name__ == "__main__":
    main()
