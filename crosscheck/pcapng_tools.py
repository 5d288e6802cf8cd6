#!/usr/bin/env python3
"""Replays pcapng files that the tools of Wireshark write, and files that they read, beside classic ones of the same.

usage: pcapng_tools.py [PROGRAM [ROUNDS [SEED]]]
With no program named the plain router is judged. Each round makes settings and a capture from a number, as compare.py
has them. Tools make pcapng files of the capture (editcap, mergecap, tshark), and each is also turned into the other
order of octets here; and a file of ours, of sections in both orders, clocks and simple packets, is made of its frames.
Of each of these files editcap makes a classic capture with nanoseconds: both must end alike. It prints how many files
of each kind were replayed, behind those that differ, and ends with status 1 where one does.

Tools refuse some files that the router reads, and read fine units of time wrongly: such files aren't made here.
"""
import collections
import os
import random
import struct
import subprocess
import sys
import tempfile

from captures import frames_of
from captures_ng import ADDED, ENHANCED, INTERFACE, MAGIC, OBSOLETE, SECTION, SIMPLE, UNIT
from compare import capture, write_octets
from makers import settings
from makers_ng import Interface, Writer, block, clock_for, interface_block, option, written
from row_runs import REPLAY, Run
from rows import Plain, Program, differences, ended
from wire import contents

# Units of which the tools tell the time: finer ones overflow in them.
UNITS = [None] * 5 + [6, 9] * 3 + [*range(11), *range(128, 163)]
NAMES, STATISTICS = 4, 5
SECRETS = b"CLIENT_RANDOM " + b"00" * 32 + b" " + b"11" * 48 + b"\n"


# Files of the tools: `a`, `b` and `c` are the capture and its two halves, `old` has its frames in obsolete packet blocks,
# and `keys` are secrets.

WAYS = {
    "editcap": "editcap -F pcapng a ng",
    "editcap, with comments": "editcap -F pcapng --capture-comment why -a 1:first -a 2:second a ng",
    "editcap, with secrets": "editcap -F pcapng --inject-secrets tls,keys a ng",
    "editcap, an hour earlier": "editcap -F pcapng -t -3600 a ng",
    "editcap, of obsolete packets": "editcap -F pcapng old ng",
    "mergecap, one interface": "mergecap -F pcapng -I all -w ng b c",
    "mergecap, an interface each": "mergecap -F pcapng -I none -w ng b c",
    "mergecap, one behind another": "mergecap -F pcapng -a -w ng b c",
    "tshark": "tshark -n -r a -F pcapng -w ng",
}


def tool(words, folder):
    done = subprocess.run(words.split(), cwd=folder, stdout=subprocess.DEVNULL, stderr=subprocess.PIPE, text=True)
    if done.returncode:
        sys.exit(f"{words}\n{done.stderr}")


def classic_of(name, folder):
    """The classic capture that editcap makes of a file."""
    tool(f"editcap -F nsecpcap {name} classic", folder)
    return contents(os.path.join(folder, "classic"))


def obsolete(frames):
    """A file of frames in obsolete packet blocks, in microseconds."""
    parts = [block("<", SECTION, struct.pack("<IHHQ", MAGIC, 1, 0, 2**64 - 1)),
             block("<", INTERFACE, struct.pack("<HHI", frames[0][1] if frames else 1, 0, 0))]
    for moment, _, octets in frames:
        high, low = divmod(moment // 1000, 2**32)
        fields = struct.pack("<HHIIII", 0, 0, high, low, len(octets), len(octets))
        parts.append(block("<", OBSOLETE, fields + octets + bytes(-len(octets) % 4)))
    return b"".join(parts)


# The other order of octets.


def turned_numbers(octets, form):
    return struct.pack(">" + form, *struct.unpack("<" + form, octets))


def turned_options(octets):
    """Options of an interface, or of any other block: of their values seconds that are added are a number."""
    parts = []
    while len(octets) >= 4:
        code, size = struct.unpack("<HH", octets[:4])
        end = 4 + size + -size % 4
        value = octets[4:end]
        parts.append(struct.pack(">HH", code, size) + (value[::-1] if code == ADDED and size == 8 else value))
        octets = octets[end:]
    return b"".join(parts)


def turned_body(kind, body):
    """The body of a little-endian block that is read, in the other order; what is passed over stays as it is."""
    if kind == SECTION:
        return turned_numbers(body[:16], "IHHQ") + turned_options(body[16:])
    if kind == INTERFACE:
        return turned_numbers(body[:8], "HHI") + turned_options(body[8:])
    if kind == SIMPLE:
        return turned_numbers(body[:4], "I") + body[4:]
    if kind == ENHANCED:
        size = struct.unpack("<I", body[12:16])[0]
        end = 20 + size + -size % 4
        return turned_numbers(body[:20], "IIIII") + body[20:end] + turned_options(body[end:])
    return None


def turned(octets):
    """A little-endian file in the other order, without the blocks that are passed over."""
    at, parts = 0, []
    while at < len(octets):
        kind, size = struct.unpack("<II", octets[at:at + 8])
        body = turned_body(kind, octets[at + 8:at + size - 4])
        parts += [block(">", kind, body)] if body is not None else []
        at += size
    return b"".join(parts)


# Files of ours.


class Tidy(Writer):
    """A file that the tools read: with few options, and with names and statistics to pass over."""

    def clock(self, moment):
        return clock_for(self.r, moment, UNITS)

    def packet_options(self):
        return b""

    def begin_section(self):
        self.order, self.interfaces = self.r.choice("<>"), []
        self.blocks.append(block(self.order, SECTION, struct.pack(self.order + "IHHQ", MAGIC, 1, 0, 2**64 - 1)))

    def add_interface(self, link, clock):
        one, options = Interface(link, self.r.choice([0, 65535, 262144]), clock), b""
        if clock.unit is not None:
            options += option(self.r, self.order, UNIT, bytes([clock.unit]))
        if clock.added is not None:
            options += option(self.r, self.order, ADDED, struct.pack(self.order + "q", clock.added))
        self.interfaces.append(one)
        self.blocks.append(interface_block(self.r, self.order, link, one.snap, options))

    def add_between(self, moment):
        if self.r.random() < 0.03:
            self.begin_section()
        if self.interfaces and self.r.random() < 0.2:
            kind, size = self.r.choice([(NAMES, 4), (STATISTICS, 12)])
            self.blocks.append(block(self.order, kind, bytes(size)))


# Ends.


def files_of(r, folder):
    """The pcapng files that are made of the capture `a` in a folder: kinds, octets, and classic captures."""
    paths = {name: os.path.join(folder, name) for name in ("a", "b", "c", "old", "ng", "keys")}
    frames = list(frames_of(paths["a"]))
    half = max(1, len(frames) // 2)
    tool(f"editcap -r a b 1-{half}", folder)
    tool(f"editcap a c 1-{half}", folder)
    write_octets(paths["old"], obsolete(frames))
    write_octets(paths["keys"], SECRETS)
    for name, words in WAYS.items():
        tool(words, folder)
        # No tool takes secrets out of a file again.
        octets, classic = contents(paths["ng"]), classic_of("a" if "keys" in words else "ng", folder)
        yield name, octets, classic
        yield f"{name}, big-endian", turned(octets), classic
    octets = written(r, frames, Tidy).octets()
    write_octets(paths["ng"], octets)
    yield "ours", octets, classic_of("ng", folder)


def difference_of(judge, text, octets, classic):
    """In what the end of a pcapng file differs from that of a classic one."""
    files = {"settings": text.encode(), "in": classic}
    wanted = Run(REPLAY.split(), files, *ended(judge, Run(REPLAY.split(), files, 0, "", None)))
    run = Run(f"{REPLAY} --format ng".split(), {**files, "in": octets}, *wanted.end())
    return differences(run, ended(judge, run))


def main():
    words = sys.argv[1:]
    judge = Program(words[0]) if words else Plain()
    count = int(words[1]) if len(words) > 1 else 10
    seed = int(words[2]) if len(words) > 2 else 1
    counts, differ = collections.Counter(), 0
    with tempfile.TemporaryDirectory() as folder:
        for i in range(count):
            r = random.Random(f"{seed} {i}")
            text = settings(r)
            capture(r, text, os.path.join(folder, "a"))
            for name, octets, classic in files_of(r, folder):
                counts[name] += 1
                found = difference_of(judge, text, octets, classic)
                print(f"DIFFERS round {i} of seed {seed}: {name}\n{found}" * bool(found), end="", flush=True)
                differ += bool(found)
    for name, times in counts.items():
        print(f"{times:5} {name}")
    print(f"{sum(counts.values())} files, {differ} differ")
    sys.exit(differ > 0)


if __name__ == "__main__":
    main()
