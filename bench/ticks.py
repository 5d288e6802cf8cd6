#!/usr/bin/env python3
"""Writes settings and captures between whose frames whole seconds go by.

usage: ticks.py FOLDER gap SECONDS LOCATORS [CHANGES] | ticks.py FOLDER quiet SECONDS MAPPINGS |
    ticks.py FOLDER busy FRAMES LOCATORS SEED
gap makes settings.toml and capture.pcap: two packets to an address without a mapping, so many seconds apart, at a site
that asks a resolver and, where there are locators (at most 2,000), probes them; each mapping names 25 of them. Behind
the last packet the own locator goes down and comes up so many times (at most 256).
quiet makes the same with so many mappings (at most 65,536), each of which names a locator of its own.
busy makes probing.toml, settings.toml (the same without probes) and capture.pcap: packets of 80 to 1,400 octets within
100 s, made from a number, to one mapping of so many locators (at most 32), and an answer to each probe 0.1 s behind it.
"""
import random
import struct
import sys

from packets import udp_packet

START, SPAN, AGAIN, AT_ONCE, ANSWERED = 1_700_000_000, 100, 60, 16, 100_000
OWN = bytes([192, 0, 2, 1])
HEADER = struct.pack("<IHHIIII", 0xA1B2C3D4, 2, 4, 0, 0, 262144, 101)
SITE = ('[[locator]]\naddress = "192.0.2.1"\n[[attachment]]\nvlan = 0\niid = 0\n'
        '[[database]]\niid = 0\nprefix = "10.1.0.0/16"\n')


def locator(i):
    return bytes([198, 18, i // 256, i % 256])


def mapping(i, some):
    """A mapping to some locators, with equal shares."""
    return f'[[mapping]]\niid = 0\nprefix = "10.2.{i}.0/24"\n' + "".join(
        f'[[mapping.locator]]\naddress = "{".".join(map(str, locator(j)))}"\n' for j in some)


def answer(source, nonce):
    """A Map-Reply to a probe, with one mapping of one locator."""
    record = struct.pack(">IBBHHH", 1440, 1, 24, 0x1000, 0, 1) + bytes([10, 2, 0, 0])
    message = struct.pack(">IQ", 0x28000001, nonce) + record + struct.pack(">BBBBHH", 1, 1, 255, 0, 7, 1) + source
    return udp_packet(source, OWN, (4342, 4342), message, True)


def record(moment, octets):
    """A record of a capture, so many microseconds behind the start."""
    head = START + moment // 10**6, moment % 10**6, len(octets), len(octets)
    return struct.pack("<IIII", *head) + octets


def change(i):
    """A change of the own locator, behind the greatest gap: down where i is even, else up."""
    return f'[[change]]\nat = {START + 2 * 10**6 + i}\naddress = "192.0.2.1"\nup = {"false" if i % 2 == 0 else "true"}\n'


def write_gap(folder, seconds, locators, changes=0):
    site = 'resolver = "203.0.113.9"\n' + "probe = true\n" * (locators > 0) + SITE
    with open(f"{folder}/settings.toml", "w") as file:
        file.write(site + "".join(
            mapping(i // 25, range(i, min(i + 25, locators))) for i in range(0, locators, 25)))
        file.write("".join(map(change, range(changes))))
    octets = udp_packet(bytes([10, 1, 0, 5]), bytes([10, 3, 0, 9]), (1000, 2000), b"", False)
    with open(f"{folder}/capture.pcap", "wb") as file:
        file.write(HEADER + record(0, octets) + record(seconds * 10**6, octets))


def write_quiet(folder, seconds, mappings):
    write_gap(folder, seconds, 0)
    with open(f"{folder}/settings.toml", "w") as file:
        file.write("probe = true\n" + SITE)
        for i in range(mappings):
            file.write(f'[[mapping]]\niid = 0\nprefix = "11.{i // 256}.{i % 256}.0/24"\n'
                       f'[[mapping.locator]]\naddress = "12.0.{i // 256}.{i % 256}"\n')


def answers(locators):
    """The moment of each answer, its locator and its nonce: probes go out in order of address, sixteen a second."""
    for i in range(SPAN // AGAIN + 1):
        for j in range(locators):
            second = 1 + AGAIN * i + j // AT_ONCE
            if second < SPAN:
                yield second * 10**6 + ANSWERED + j, locator(j), i * locators + j + 1


def frames(count, seed):
    numbers, zeros = random.Random(seed), bytes(1400)
    for i in range(count):
        size, host, port = numbers.randint(80, 1400), numbers.randrange(65536), numbers.randrange(65536)
        source = bytes([10, 1]) + struct.pack(">H", host)
        yield i * SPAN * 10**6 // count, udp_packet(source, bytes([10, 2, 0, 9]), (port, 2000), zeros[:size - 28], False)


def write_busy(folder, count, locators, seed):
    due = list(answers(locators))
    nonces = ", ".join(f'"{nonce:016x}"' for _, _, nonce in due)
    site = f"nonces = [{nonces}]\n" + SITE + mapping(0, range(locators))
    for name, probing in ("probing", "probe = true\n"), ("settings", ""):
        with open(f"{folder}/{name}.toml", "w") as file:
            file.write(probing + site)
    with open(f"{folder}/capture.pcap", "wb") as file:
        file.write(HEADER)
        for moment, octets in frames(count, seed):
            while due and due[0][0] <= moment:
                at, source, nonce = due.pop(0)
                file.write(record(at, answer(source, nonce)))
            file.write(record(moment, octets))


def main():
    folder, kind, *numbers = sys.argv[1:]
    {"gap": write_gap, "quiet": write_quiet, "busy": write_busy}[kind](folder, *map(int, numbers))


main()
