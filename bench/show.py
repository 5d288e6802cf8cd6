#!/usr/bin/env python3
"""Writes a capture of many control messages, made from a number.

usage: show.py FILE MESSAGES SEED
Of three messages one is a Map-Request, one a Map-Reply of 1 to 4 records with 1 to 3 locators, and one
an Encapsulated Map-Request, in raw IPv4 packets between two locators.
"""
import random
import struct
import sys

from packets import ones_sum

ITR, RESOLVER = bytes([192, 0, 2, 1]), bytes([198, 51, 100, 7])


def packet(source, dest, payload):
    length = 8 + len(payload)
    udp = struct.pack(">HHHH", 4342, 4342, length, 0) + payload
    total = ones_sum(source + dest + struct.pack(">BBH", 0, 17, length) + udp)
    udp = udp[:6] + struct.pack(">H", (0xFFFF - total) or 0xFFFF) + payload
    front = struct.pack(">BBHHHBBH", 0x45, 0, 20 + length, 0, 0x4000, 64, 17, 0) + source + dest
    return front[:10] + struct.pack(">H", 0xFFFF - ones_sum(front)) + front[12:] + udp


def eid(numbers):
    address = struct.pack(">H4s", 1, bytes([10, numbers.randrange(256), numbers.randrange(256), 0]))
    if numbers.randrange(2):
        return address
    return struct.pack(">HBBBBHI", 16387, 0, 0, 2, 0, 10, numbers.randrange(1, 1 << 24)) + address


def request(numbers):
    head = struct.pack(">IQ", 0x10000000 + 1, numbers.getrandbits(64))
    return head + bytes(2) + struct.pack(">H", 1) + ITR + bytes([0, 24]) + eid(numbers)


def record(numbers):
    locators = numbers.randint(1, 3)
    front = struct.pack(">IBBHH", 1440, locators, 24, 0x1000, 0) + eid(numbers)
    locator = struct.pack(">BBBBHH", 1, 100, 255, 0, 1, 1)
    return front + b"".join(locator + bytes([203, 0, 113, i]) for i in range(locators))


def reply(numbers):
    records = numbers.randint(1, 4)
    head = struct.pack(">IQ", 0x20000000 + records, numbers.getrandbits(64))
    return head + b"".join(record(numbers) for _ in range(records))


def encapsulated(numbers):
    return struct.pack(">I", 0x80000000) + packet(ITR, bytes([10, 2, 0, 9]), request(numbers))


def main():
    path, messages, seed = sys.argv[1], int(sys.argv[2]), int(sys.argv[3])
    numbers = random.Random(seed)
    with open(path, "wb") as file:
        file.write(struct.pack("<IHHIIII", 0xA1B2C3D4, 2, 4, 0, 0, 262144, 101))
        for i in range(messages):
            octets = packet(ITR, RESOLVER, (request, reply, encapsulated)[i % 3](numbers))
            file.write(struct.pack("<IIII", 1_700_000_000 + i // 10_000, i % 10_000 * 100, len(octets), len(octets)))
            file.write(octets)


main()
