#!/usr/bin/env python3
"""Writes settings and captures of many frames, made from a number.

usage: encapsulate.py FOLDER FRAMES SEED KIND
KIND is raw (IPv4), ethernet (IPv4 behind Ethernet, every second frame tagged), ipv6 (raw),
mappings (raw IPv4, with 50,000 static mappings in two instances) or tunnels (raw IPv4 out of tunnels).
Frames have packets of 80 to 1,400 octets from the site to a mapped prefix, or the other way.
"""
import random
import socket
import struct
import sys

from packets import ones_sum

IPV4 = "10.1.0.0/16", "10.2.0.0/16"
IPV6 = "2001:db8:1::/48", "2001:db8:2::/48"
MAPPINGS = 50_000


def mapping(iid, prefix):
    return (
        f'[[mapping]]\niid = {iid}\nprefix = "{prefix}"\n'
        '[[mapping.locator]]\naddress = "198.51.100.7"\n'
    )


def settings(kind):
    database, other = IPV6 if kind == "ipv6" else IPV4
    mappings = mapping(0, other)
    if kind == "mappings":
        mappings = "".join(
            mapping(i % 2, f"10.{2 + i // 65536}.{i // 256 % 256}.{i % 256}/32") for i in range(MAPPINGS))
    return (
        '[[locator]]\naddress = "192.0.2.1"\n[[attachment]]\nvlan = 0\niid = 0\n'
        f'[[database]]\niid = 0\nprefix = "{database}"\n{mappings}'
    )


def ipv4_between(source, dest, size, ports, port):
    front = struct.pack(">BBHHHBBH4s4s", 0x45, 0, size, 0, 0, 64, 17, 0, source, dest)
    front = front[:10] + struct.pack(">H", 0xFFFF - ones_sum(front)) + front[12:]
    return front + struct.pack(">HHHH", ports, port, size - 20, 0)


def ipv4(size, host, ports):
    return ipv4_between(bytes([10, 1]) + struct.pack(">H", host), bytes([10, 2, 0, 9]), size, ports, 2000)


def to_many(size, host, ports):
    dest = bytes([10, 2]) + struct.pack(">H", host % MAPPINGS & ~1)
    return ipv4_between(bytes([10, 1, 0, 5]), dest, size, ports, 2000)


def tunnelled(size, host, ports):
    inner = ipv4_between(
        bytes([10, 2, 0, 9]), bytes([10, 1]) + struct.pack(">H", host), size - 36, ports, 2000)
    outer = ipv4_between(bytes([198, 51, 100, 7]), bytes([192, 0, 2, 1]), size, ports, 4341)
    return outer + bytes(8) + inner


def ipv6(size, host, ports):
    source = socket.inet_pton(socket.AF_INET6, f"2001:db8:1::{host:x}")
    dest = socket.inet_pton(socket.AF_INET6, "2001:db8:2::9")
    front = struct.pack(">IHBB", 6 << 28, size - 40, 17, 64) + source + dest
    return front + struct.pack(">HHHH", ports, 2000, size - 40, 0)


def main():
    folder, frames, seed, kind = sys.argv[1], int(sys.argv[2]), int(sys.argv[3]), sys.argv[4]
    numbers = random.Random(seed)
    write = {"ipv6": ipv6, "mappings": to_many, "tunnels": tunnelled}.get(kind, ipv4)
    zeros = bytes(1400)
    with open(f"{folder}/settings.toml", "w") as file:
        file.write(settings(kind))
    link = 1 if kind == "ethernet" else 101
    with open(f"{folder}/capture.pcap", "wb") as file:
        file.write(struct.pack("<IHHIIII", 0xA1B2C3D4, 2, 4, 0, 0, 262144, link))
        for i in range(frames):
            size, host, ports = numbers.randint(80, 1400), numbers.randrange(65536), numbers.randrange(65536)
            packet = write(size, host, ports)
            packet += zeros[: size - len(packet)]
            if link == 1:
                tag = "81000000" if i % 2 else ""
                packet = bytes.fromhex("0200000000010200000000ff" + tag + "0800") + packet
            head = struct.pack("<IIII", 1_700_000_000 + i // 10_000, i % 10_000 * 100, len(packet), len(packet))
            file.write(head + packet)


main()
