#!/usr/bin/env python3
"""Replays captures with `--split on`, and without it what becomes of them where their large packets are split here.

usage: halved.py [PROGRAM [ROUNDS [SEED]]]
With no program named the plain router is judged. Each round makes settings and a capture from a number, of which many
frames are large, as compare.py has them; the halves are made by a splitter of its own, which shares nothing with the
plain router's. Both replays must end alike, also in rounds of one frame with workers, as pcapng files. It prints how
many frames were split, and ends with status 1 where two ends differ.
"""
import ipaddress
import os
import random
import sys
import tempfile
import tomllib

from compare import capture, frames_before, large_frames
from makers import settings
from makers_ng import written
from row_runs import REPLAY, Run
from rows import Plain, Program, differences, ended

OCTETS = 16
WAYS = "", " --workers 2 --round 1"


class Fields:
    """An IPv4 header as bits of one number."""

    def __init__(self, octets):
        self.bits = "".join(f"{octet:08b}" for octet in octets)

    def whole(self, first, last):
        """The number in some bits."""
        return int(self.bits[first:last], 2)


def added(octets):
    """The ones' complement sum of pairs of octets."""
    total = sum(octets[::2]) * 256 + sum(octets[1::2])
    while total > 0xFFFF:
        total = total % 0x10000 + total // 0x10000
    return total


def sides(options):
    """The options that each fragment has, or None where they aren't well-formed; octet by octet, from the last on."""
    ends = {len(options): b""}
    for at in reversed(range(len(options))):
        kind, size = options[at], options[at + 1] if at + 1 < len(options) else 0
        if kind == 0:
            ends[at] = b""
        elif kind == 1:
            ends[at] = ends[at + 1]
        elif size < 2 or at + size > len(options):
            ends[at] = None
        else:
            rest = ends[at + size]
            ends[at] = rest if kind < 128 or rest is None else options[at:at + size] + rest
    return ends[0]


class Settings:
    """What settings say that counts here."""

    def __init__(self, text):
        top = tomllib.loads(text)
        self.own = {ipaddress.ip_address(table["address"]) for table in top["locator"]}
        self.iids = {table["vlan"]: table["iid"] for table in top.get("attachment", [])}
        self.homes = {(table["iid"], ipaddress.ip_network(table["prefix"], strict=False))
                      for table in top.get("database", [])}
        self.most = min(1464 if own.version == 4 else 1444 for own in self.own)

    def has(self, iid, address):
        return any(one == iid and address in network for one, network in self.homes)

    def halves(self, link, frame):
        """The halves of a frame, or the frame alone."""
        front, vlan = (14, 0) if link == 1 else (0, 0)
        if link == 1 and frame[12:14] == b"\x81\0":
            front, vlan = 18, int.from_bytes(frame[14:16], "big") % 4096
        is_ip = link == 101 or frame[front - 2:front] in (b"\x08\0", b"\x86\xdd")
        packet = frame[front:]
        if not is_ip or len(packet) < 20 or packet[0] >> 4 != 4:
            return [frame]
        head = Fields(packet[:20])
        at, total = 4 * head.whole(4, 8), head.whole(16, 32)
        if at < 20 or not at <= total <= len(packet) or added(packet[:at]) != 0xFFFF:
            return [frame]
        source, dest = ipaddress.ip_address(head.whole(96, 128)), ipaddress.ip_address(head.whole(128, 160))
        iid = self.iids.get(vlan)
        is_away = not (dest.is_multicast or dest == ipaddress.ip_address("255.255.255.255") or self.has(iid, dest))
        leaves = iid is not None and is_away and self.has(iid, source) and not {source, dest} & self.own
        kept, words = sides(packet[20:at]), -(-(total - at) // OCTETS)
        is_held = head.bits[49] == "1" or kept is None or head.whole(51, 64) + words > 8191
        if not leaves or total <= self.most or is_held:
            return [frame]
        cut = at + 8 * words
        first = self.made(packet, packet[20:at], "1", head.whole(51, 64), packet[at:cut])
        second = self.made(packet, kept, head.bits[50], head.whole(51, 64) + words, packet[cut:total])
        return [frame[:front] + first, frame[:front] + second]

    def made(self, packet, options, more, offset, payload):
        """A part of a packet."""
        while len(options) % 4:
            options += b"\0"
        head = bytearray(packet[:20] + options)
        head[0] = 0x40 + len(head) // 4
        head[2:4] = (len(head) + len(payload)).to_bytes(2, "big")
        flags = f"{packet[6]:08b}"[:2] + more
        head[6:8] = int(flags + f"{offset:013b}", 2).to_bytes(2, "big")
        head[10:12] = bytes(2)
        head[10:12] = (added(head) ^ 0xFFFF).to_bytes(2, "big")
        return bytes(head) + payload


def split_here(text, frames):
    """The frames, of which large packets are split."""
    site = Settings(text)
    return [(moment, link, half) for moment, link, frame in frames for half in site.halves(link, frame)]


def runs(r, text, frames):
    """Pairs of runs that must end alike, in blocks: both files have the frames and their halves as they are."""
    for more in WAYS:
        for vlans in "none", "vlan":
            whole = written(r, frames)
            parts = written(r, split_here(text, whole.frames(vlans == "vlan")))
            yield tuple(
                Run(f"{REPLAY} --format ng{words}{more}".split(), {"settings": text.encode(), "in": made.octets()},
                    0, "", None)
                for words, made in ((f" --interfaces {vlans} --split on", whole), ("", parts)))


def main():
    words = sys.argv[1:]
    judge = Program(words[0]) if words else Plain()
    count = int(words[1]) if len(words) > 1 else 20
    seed = int(words[2]) if len(words) > 2 else 1
    differ = split = replays = 0
    with tempfile.TemporaryDirectory() as folder:
        for i in range(count):
            r = random.Random(f"{seed} {i}")
            text = settings(r)
            capture(r, text, os.path.join(folder, "a"), large_frames)
            frames = frames_before(os.path.join(folder, "a"))
            for ours, other in runs(r, text, frames):
                wanted = Run(ours.words, ours.files, *ended(judge, other))
                found = differences(wanted, ended(judge, ours))
                print(f"DIFFERS round {i} of seed {seed}\n{found}" * bool(found), end="", flush=True)
                differ, replays = differ + bool(found), replays + 1
            split += len(split_here(text, frames)) - len(frames)
    print(f"{replays} pairs of replays, {split} frames split, {differ} differ")
    sys.exit(differ > 0)


if __name__ == "__main__":
    main()
