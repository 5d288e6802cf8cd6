#!/usr/bin/env python3
"""Holds packets that are split against tshark, which puts what is written together again.

usage: reassembled.py [PROGRAM [SEEDS]]
With no program named the plain router is judged. Each seed makes a capture of 500 datagrams with IP options or without,
each a packet, or fragments that come in any order, most of them too large for a tunnel; their tunnels go over IPv4 or
IPv6. It is replayed with `--split on`. Of the tunnel packets tshark must put together the payload of each datagram,
out of as many fragments as it must have come in, each with a right checksum and the options that it must have. It prints
the faults, how much was put together, and ends with status 1 where there is a fault.
"""
import collections
import os
import random
import struct
import subprocess
import sys
import tempfile
from typing import NamedTuple

from compare import write, write_records
from tshark import GOOD, WARNING, fields_read
from wire import ones_sum

HERE = os.path.dirname(os.path.abspath(__file__))
COUNT, START, MICRO = 500, 1_700_000_000 * 10**9, 1000
OWN = {"IPv4": ["192.0.2.1"], "IPv6": ["2001:db8:f::1"], "both": ["192.0.2.1", "2001:db8:f::1"]}
PEERS = {"IPv4": "198.51.100.7", "IPv6": "2001:db8:e::7"}
SOURCE, DEST, PROTOCOL = bytes([10, 1, 0, 5]), bytes([10, 2, 0, 9]), 253
FAULTS = ["ip.fragment.error", "ip.fragment.overlap", "ip.fragment.toolongfragment"]
FIELDS = ["frame.number", "_ws.malformed", "_ws.expert.severity", "_ws.expert.message", "ip.checksum.status", "ip.ttl",
          "ip.len", "ipv6.plen", "ip.id", "ip.frag_offset", "ip.opt.type", *FAULTS, "ip.fragment.count",
          "ip.reassembled.data"]
# What tshark finds wrong with a UDP checksum of 0 over IPv6, which a tunnel may have.
ZERO = "Illegal checksum value (0)"


class Datagram(NamedTuple):
    """Its options, its payload, and the places at which its sender cut that."""
    options: list
    payload: bytes
    cuts: list

    def packets(self, name):
        """The packets in which it comes."""
        ends = [*self.cuts, len(self.payload)]
        return [self.packet(name, at, end) for at, end in zip([0, *self.cuts], ends)]

    def packet(self, name, at, end):
        options = b"".join(option for option in self.options if at == 0 or option[0] > 127)
        options += bytes(-len(options) % 4)
        size, more = 20 + len(options), 0x2000 * (end < len(self.payload))
        front = struct.pack(">BBHHHBBH", 0x40 | size // 4, 0, size + end - at, name, more | at // 8, 64, PROTOCOL, 0)
        front += SOURCE + DEST + options
        return front[:10] + struct.pack(">H", 0xFFFF - ones_sum(front)) + front[12:] + self.payload[at:end]


def an_option(r):
    """An option in which tshark finds no fault: nothing, the route so far, times, security, a route, a stream, an alert."""
    return r.choice([
        b"\x01", b"\x01", b"\x07\x07\x04" + bytes(4), b"\x44\x08\x05\x00" + r.randbytes(4), b"\x82\x0b" + bytes(9),
        b"\x83\x07\x04" + DEST, b"\x88\x04" + r.randbytes(2), b"\x94\x04\x00\x00"])


def datagram(r, most):
    """A datagram of whose packets most have more octets than fit; none has more than fit into two."""
    options = []
    for _ in range(r.choice([0, 0, 0, 1, 2, 3, 4])):
        option = an_option(r)
        if sum(map(len, options)) + len(option) <= 40 and option not in options:
            options.append(option)
    room = most - 20 - (sum(map(len, options)) + 3) // 4 * 4
    sizes = [r.randrange(room // 2, 2 * room - 16) // 8 * 8 for _ in range(r.choice([0, 0, 0, 1, 2, 3]))]
    cuts = [sum(sizes[:i + 1]) for i in range(len(sizes))]
    return Datagram(options, r.randbytes(sum(sizes) + r.randint(room + 1, 2 * room - 16)), cuts)


def frames_of(r, datagrams, link):
    """Frames of all their packets, a microsecond apart; at times with octets behind a packet."""
    front = bytes(12) + b"\x08\x00" if link == 1 else b""
    packets = []
    for name, one in enumerate(datagrams, 1):
        found = one.packets(name)
        packets += r.sample(found, len(found)) if r.random() < 0.3 else found
    return [(START + i * MICRO, front + packet + bytes(r.choice([0, 0, 5]))) for i, packet in enumerate(packets)]


def settings_of(own, peer):
    locators = "".join(f'[[locator]]\naddress = "{address}"\n' for address in own)
    return locators + f"""[[attachment]]
vlan = 0
iid = 0
[[database]]
iid = 0
prefix = "10.1.0.0/16"
[[mapping]]
iid = 0
prefix = "10.2.0.0/16"
[[mapping.locator]]
address = "{peer}"
"""


def replayed(program, folder):
    names = [os.path.join(folder, name) for name in ("settings.toml", "capture.pcap", "out.pcap")]
    command = [program] if program else [sys.executable, "-B", os.path.join(HERE, "rounds.py")]
    words = "replay", "--settings", names[0], "--in", names[1], "--out", names[2], "--split", "on"
    done = subprocess.run([*command, *words], capture_output=True, text=True)
    if done.returncode:
        sys.exit(f"{words}\n{done.stdout}status {done.returncode}")
    return names[2]


# Faults.


def types(row):
    """The types of the options that tshark reads, without those that end them."""
    return [int(value) for value in row["ip.opt.type"] if value != "0"]


def packet_faults(row, is_first, options):
    """What of a fragment is wrong, in words."""
    size = 40 + int(row["ipv6.plen"][0]) if row["ipv6.plen"] else int(row["ip.len"][0])
    wanted = [option[0] for option in options if is_first or option[0] > 127]
    tests = {
        "malformed": not row["_ws.malformed"],
        "warned of": all(int(value) < WARNING or message == ZERO for value, message in zip(
            row["_ws.expert.severity"], row["_ws.expert.message"], strict=True)),
        "checksum": row["ip.checksum.status"] == [GOOD] * len(row["ip.ttl"]),
        "size": size <= 1500,
        "options": types(row) == wanted,
        "overlapping": not any("1" in row[name] for name in FAULTS),
    }
    return [name for name, good in tests.items() if not good]


def faults(one, rows, most):
    """What of a datagram's fragments is wrong."""
    offset = lambda row: int(row["ip.frag_offset"][-1])
    wrong = [fault for row in rows for fault in packet_faults(row, offset(row) == 0, one.options)]
    wanted = sum(1 + (len(packet) > most) for packet in one.packets(0))
    whole = [data for row in rows for data in row["ip.reassembled.data"]]
    count = [value for row in rows for value in row["ip.fragment.count"]]
    if len(rows) != wanted or count != [str(wanted)]:
        wrong.append(f"{len(rows)} fragments of {wanted}")
    if whole != [one.payload.hex()]:
        wrong.append("another payload" if whole else "not put together")
    return wrong


def held(program, seed):
    """Prints the faults of a capture's datagrams, and tells how many have some, and how many fragments there were."""
    r = random.Random(seed)
    inside = r.choice([*OWN])
    peer = PEERS[inside if inside in PEERS else r.choice([*PEERS])]
    most = 1464 if inside == "IPv4" else 1444
    datagrams = [datagram(r, most) for _ in range(COUNT)]
    link, found = r.choice([1, 101]), collections.defaultdict(list)
    with tempfile.TemporaryDirectory() as folder:
        write(os.path.join(folder, "settings.toml"), settings_of(OWN[inside], peer))
        write_records(os.path.join(folder, "capture.pcap"), link, frames_of(r, datagrams, link))
        path = replayed(program, folder)
        rows = fields_read(path, "lisp-data", FIELDS, "-o", "ip.defragment:TRUE", "-o", "ip.check_checksum:TRUE")
    for row in rows.values():
        found[int(row["ip.id"][-1], 0)].append(row)
    bad = 0
    for name, one in enumerate(datagrams, 1):
        wrong = faults(one, found[name], most)
        bad += bool(wrong)
        print(f"seed {seed}, datagram {name}: {', '.join(wrong)}\n" * bool(wrong), end="")
    return bad, len(rows)


def main():
    program = os.path.abspath(sys.argv[1]) if len(sys.argv) > 1 else None
    seeds = int(sys.argv[2]) if len(sys.argv) > 2 else 1
    bad = packets = 0
    for seed in range(1, seeds + 1):
        faulty, count = held(program, seed)
        bad, packets = bad + faulty, packets + count
    print(f"{seeds * COUNT} datagrams of {packets} fragments, {bad} at fault")
    sys.exit(bad > 0)


if __name__ == "__main__":
    main()
