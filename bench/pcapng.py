#!/usr/bin/env python3
"""Replays the same frames from a classic capture and from a pcapng file, by turns, and prints the best run of each.

usage: pcapng.py PROGRAM FOLDER FRAMES RUNS | pcapng.py --write FOLDER | pcapng.py --long FOLDER MIB
The folder has settings.toml, capture.pcap and capture.pcapng. Of each way it prints frames a second, user and system
time and the greatest memory; and the report's last line, or that a report or an output isn't the classic one. Where the
frames are Ethernet, the pcapng file is also replayed with interfaces that are VLANs. With --write it makes the pcapng
file of the classic one, which has microseconds in little-endian order: two interfaces in one section, which take turns
of two frames, so that as VLANs they put a tag into each second frame that has none; and it adds an attachment for that.
With --long it makes a pcapng file of a block that is passed over, of so many MiB, which take no room on the disk.
"""
import os
import struct
import sys

from measured import last_line, measured, tell_best

MICRO = 10**6
ATTACHMENT = "[[attachment]]\nvlan = 1\niid = 0\n"
CLASSIC, ETHERNET, RAW, STATISTICS = "classic    ", 1, 101, 5


# The files.


def block(kind, *parts):
    size = struct.pack("<I", 12 + sum(map(len, parts)))
    return b"".join([struct.pack("<I", kind), size, *parts, size])


def records(file):
    """The times, in microseconds, and the octets of a capture's frames."""
    while head := file.read(16):
        second, rest, size, _ = struct.unpack("<IIII", head)
        yield second * MICRO + rest, file.read(size)


def packet(number, time, octets):
    fields = struct.pack("<IIIII", number, time >> 32, time & 0xFFFFFFFF, len(octets), len(octets))
    return block(6, fields, octets, bytes(-len(octets) % 4))


def front(link, interfaces):
    """A section and so many interfaces of a link."""
    section = block(0x0A0D0D0A, struct.pack("<IHHQ", 0x1A2B3C4D, 1, 0, 2**64 - 1))
    return section + interfaces * block(1, struct.pack("<HHI", link, 0, 262144))


def write(folder):
    with open(f"{folder}/capture.pcap", "rb") as source, open(f"{folder}/capture.pcapng", "wb") as file:
        link = struct.unpack("<I", source.read(24)[20:])[0]
        file.write(front(link, 2))
        for i, (time, octets) in enumerate(records(source)):
            file.write(packet(i // 2 % 2, time, octets))
    with open(f"{folder}/settings.toml", "a") as file:
        file.write(ATTACHMENT)


def write_long(folder, size):
    with open(f"{folder}/capture.pcapng", "wb") as file:
        file.write(front(RAW, 1) + struct.pack("<II", STATISTICS, size))
        file.seek(size - 12, os.SEEK_CUR)
        file.write(struct.pack("<I", size))


# The runs.


def choices(folder):
    """The names of the ways in which the frames are replayed, their files and words."""
    yield CLASSIC, "capture.pcap", []
    yield "pcapng     ", "capture.pcapng", ["--format", "ng"]
    with open(f"{folder}/capture.pcap", "rb") as file:
        is_ethernet = struct.unpack("<I", file.read(24)[20:])[0] == ETHERNET
    if is_ethernet:
        yield "with VLANs ", "capture.pcapng", ["--format", "ng", "--interfaces", "vlan"]


def are_alike(first, second):
    """Whether two files have the same octets."""
    with open(first, "rb") as one, open(second, "rb") as other:
        while piece := one.read(2**20):
            if piece != other.read(2**20):
                return False
        return not other.read(1)


def kept(folder, names):
    """Keeps what a classic replay said and wrote, for what comes after it."""
    for name in names:
        os.replace(f"{folder}/{name}", f"{folder}/classic_{name}")


def replay(program, folder, count, runs):
    found, said, names = {}, {}, ("report", "out.pcap")
    for _ in range(runs):
        for name, file, words in choices(folder):
            command = [program, "replay", "--settings", f"{folder}/settings.toml", "--in", f"{folder}/{file}",
                       "--out", f"{folder}/out.pcap", *words]
            found.setdefault(name, []).append(measured(f"{folder}/report", command))
            said[name] = last_line(f"{folder}/report")
            if name == CLASSIC:
                kept(folder, names)
            elif not all(are_alike(f"{folder}/{one}", f"{folder}/classic_{one}") for one in names):
                said[name] += ", and the report or the output isn't that of the classic capture"
    tell_best(found, said, CLASSIC, count)


def main():
    if sys.argv[1] == "--write":
        write(sys.argv[2])
    elif sys.argv[1] == "--long":
        write_long(sys.argv[2], int(sys.argv[3]) * 2**20)
    else:
        replay(os.path.abspath(sys.argv[1]), sys.argv[2], int(sys.argv[3]), int(sys.argv[4]))


main()
