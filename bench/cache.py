#!/usr/bin/env python3
"""Writes settings and captures of frames to destinations that the router must ask for.

usage: cache.py FOLDER FRAMES SEED
It makes, from a number: frames.pcap (packets of 80 to 1,400 octets to 1,000 destinations, 10,000 a second);
answered.pcap (the same with the reply to each request right after the frame that causes it, of eight locators of two
priorities and several weights, and after each tenth frame a packet from one of these); echoed.pcap (as answered.pcap,
but replies tell versions, and packets from locators echo a nonce, want an echo, or tell versions); and expiring.pcap (a
fifth as many frames, within 200 s, to 50,000 destinations, with the reply to each request, which lasts a minute). With
them asking.toml (a resolver, no mappings), echoing.toml (the same with echoes and a version), expiring.toml (as
asking.toml, without listed nonces), static.toml (the mappings) and single.toml (the mappings with the first locator
alone). All listed nonces are alike, so that replies don't depend on what else draws one. Besides, beside.toml (as
asking.toml, with 60,000 mappings of other destinations) and beside.pcap (a frame to each of the 1,000, and the reply to its
request). It prints three numbers: of the frames of answered.pcap, which echoed.pcap has too, of those of
expiring.pcap, and of those of beside.pcap.
"""
import random
import struct
import sys

from packets import nonce_at, udp_packet

DESTINATIONS, NONCE = 1_000, 0x0102030405060708
# Of mappings that end, in microseconds.
EXPIRING, SPAN, MINUTE = 50_000, 200 * 10**6, 60 * 10**6
# Of mappings in the settings that no frame goes to.
BESIDE = 60_000
OWN, OTHER = bytes([192, 0, 2, 1]), bytes([198, 51, 100, 7])
# The last octet of each locator of a mapping, its priority and its weight.
LOCATORS = [(7 + i, 1 + i // 4, 10 * (1 + i % 4)) for i in range(8)]
HEADER = struct.pack("<IHHIIII", 0xA1B2C3D4, 2, 4, 0, 0, 262144, 101)
OWN_VERSION, OTHER_VERSION = 5, 7
SITE = ('[[locator]]\naddress = "192.0.2.1"\n[[attachment]]\nvlan = 0\niid = 0\n'
        '[[database]]\niid = 0\nprefix = "10.1.0.0/16"\n')
RESOLVER = 'resolver = "203.0.113.9"\n'
ASKING = RESOLVER + "nonces = [" + ", ".join([f'"{NONCE:016x}"'] * 4096) + "]\n"


def mapping_beside(i):
    return (f'[[mapping]]\niid = 0\nprefix = "10.3.{i // 256}.{i % 256}/32"\n'
            '[[mapping.locator]]\naddress = "198.51.100.7"\n')


def address(i):
    return bytes([10, 2]) + struct.pack(">H", i)


def mapping(i, locators):
    return f'[[mapping]]\niid = 0\nprefix = "10.2.{i // 256}.{i % 256}/32"\n' + "".join(
        f'[[mapping.locator]]\naddress = "198.51.100.{last}"\npriority = {priority}\nweight = {weight}\n'
        for last, priority, weight in locators)


def record_at(moment, octets):
    """A record of a capture, so many microseconds behind the start."""
    head = 1_700_000_000 + moment // 10**6, moment % 10**6, len(octets), len(octets)
    return struct.pack("<IIII", *head) + octets


def record(i, part, octets):
    """A record of a capture, in a third of the time of the frame."""
    return record_at(100 * i + 30 * part, octets)


def frames(count, seed, destinations=DESTINATIONS):
    """The destination of each frame, and the frame."""
    numbers, zeros = random.Random(seed), bytes(1400)
    for _ in range(count):
        size, host, port = numbers.randint(80, 1400), numbers.randrange(65536), numbers.randrange(65536)
        dest = numbers.randrange(destinations)
        source = bytes([10, 1]) + struct.pack(">H", host)
        yield dest, udp_packet(source, address(dest), (port, 2000), zeros[:size - 28], False)


def reply(dest, version, minutes=1440, nonce=NONCE):
    front = struct.pack(">IQ", 0x20000001, nonce)
    eid = struct.pack(">IBBHHH", minutes, len(LOCATORS), 32, 0x1000, version, 1) + dest
    locators = b"".join(
        struct.pack(">BBBBHH", priority, weight, 255, 0, 1, 1) + OTHER[:3] + bytes([last])
        for last, priority, weight in LOCATORS)
    return udp_packet(OTHER, OWN, (4342, 4342), front + eid + locators, True)


def told(i):
    """The first half of a header: an echo, a nonce to be echoed that is another each second, versions, or nothing."""
    field = [NONCE & 0xFFFFFF, i // 10_000, OTHER_VERSION << 12 | OWN_VERSION, 0][i // 10 % 4]
    return (0x80, 0xA0, 0x10, 0)[i // 10 % 4] << 24 | field


def arriving(i, dest, field):
    """A packet from the frame's destination, in a tunnel from one of its locators."""
    inner = udp_packet(address(dest), bytes([10, 1, 0, 5]), (2000, 1000), bytes(172), False)
    source = OTHER[:3] + bytes([LOCATORS[i // 40 % 4][0]])
    return udp_packet(source, OWN, (50000, 4341), struct.pack(">II", field, 0) + inner, False)


def write_settings(folder):
    for name, text in (
            ("asking", ASKING + SITE), ("echoing", "echo = true\n" + ASKING + SITE + f"version = {OWN_VERSION}\n"),
            ("expiring", RESOLVER + SITE),
            ("beside", ASKING + SITE + "".join(map(mapping_beside, range(BESIDE)))),
            ("static", SITE + "".join(mapping(i, LOCATORS) for i in range(DESTINATIONS))),
            ("single", SITE + "".join(mapping(i, LOCATORS[:1]) for i in range(DESTINATIONS)))):
        with open(f"{folder}/{name}.toml", "w") as file:
            file.write(text)


def write_frames(folder, count, seed):
    with open(f"{folder}/frames.pcap", "wb") as file:
        file.write(HEADER)
        for i, (_, octets) in enumerate(frames(count, seed)):
            file.write(record(i, 0, octets))


def write_answered(path, count, seed, has_echoes):
    """Tells how many frames the capture has."""
    asked, arrived = set(), 0
    with open(path, "wb") as file:
        file.write(HEADER)
        for i, (dest, octets) in enumerate(frames(count, seed)):
            file.write(record(i, 0, octets))
            if dest not in asked:
                file.write(record(i, 1, reply(address(dest), OTHER_VERSION * has_echoes)))
            asked.add(dest)
            if i % 10 == 9:
                file.write(record(i, 2, arriving(i, dest, told(i) if has_echoes else 0)))
                arrived += 1
    return count + len(asked) + arrived


def write_expiring(path, count, seed):
    """Tells how many frames the capture has: a destination is asked for where none of its replies lasts."""
    ends, asked = {}, 0
    with open(path, "wb") as file:
        file.write(HEADER)
        for i, (dest, octets) in enumerate(frames(count, seed, EXPIRING)):
            moment = i * SPAN // count
            file.write(record_at(moment, octets))
            if ends.get(dest, 0) <= moment:
                nonce = nonce_at([], bytes(32), asked)
                file.write(record_at(moment + 30, reply(address(dest), 0, 1, nonce)))
                ends[dest] = moment + 30 + MINUTE
                asked += 1
    return count + asked


def write_beside(path):
    """Tells how many frames the capture has."""
    with open(path, "wb") as file:
        file.write(HEADER)
        for i in range(DESTINATIONS):
            file.write(record(i, 0, udp_packet(bytes([10, 1, 0, 5]), address(i), (1000, 2000), bytes(172), False)))
            file.write(record(i, 1, reply(address(i), 0)))
    return 2 * DESTINATIONS


def main():
    folder, count, seed = sys.argv[1], int(sys.argv[2]), int(sys.argv[3])
    write_settings(folder)
    write_frames(folder, count, seed)
    write_answered(f"{folder}/answered.pcap", count, seed, False)
    exchanged = write_answered(f"{folder}/echoed.pcap", count, seed, True)
    print(exchanged, write_expiring(f"{folder}/expiring.pcap", count // 5, seed), write_beside(f"{folder}/beside.pcap"))


main()
