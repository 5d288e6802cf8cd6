#!/usr/bin/env python3
"""Compares the built program with the plain router on captures made from a number.

usage: compare.py PROGRAM [ROUNDS [SEED [FIRST]]]
Each round makes settings and a capture of 300 frames, at times 2,000: packets of the site, packets in tunnels that tell
status bits, nonces and versions, replies to what the router asked and probed, Map-Requests of all kinds and other
control messages, in both families and mostly in several instances, many of them spoiled or late, some a minute or ten
behind the frame before, and a few up to a day, in two fifths of the rounds with small limits of instances, and up to 20
changes of own locators at the seconds of frames and around them; then the same frames as a pcapng file, whose
interfaces may be VLANs, which must end as they do in records; 20 such files of some of the frames, most of them at
fault; then such a capture that fits a router with workers, of either format and at times cut short, which the program
replays with 1 to 16 of these and rounds of 1 to 4,096 frames; then frames of which many are large, in both formats, and
in such rounds, with `--split on`; and then 40 settings files with spoiled values. Without workers the program must say
and write what the plain router does, and with them what its own numbers make of that. Before these it replays worked
frames with two workers, a hundred times. It ends with status 1 at the first difference, and leaves its files. FIRST is
the number of the first round, 0 if it is left out: so processes in folders of their own can share the rounds of a seed.
"""
import os
import random
import struct
import subprocess
import sys
import tempfile
import tomllib
from typing import NamedTuple

import large
import plain
import rounds
import settings as rules
import worked_rounds
from captures import CaptureFault, frames_of
from captures_ng import reader_of
from commands import Format
from makers import framed, packet, settings, spoiled_settings
from makers_ng import spoiled, written
from sites import Site
from talk import Talk
from wire import contents, existing

FEW, MANY = 300, 2000
# Frames of a router's round, mostly few, so that a capture has many.
SIZES = [1, 2, 3, 4, 6, 10, 20, 60, 256, 4096]
# How often worked frames are replayed.
WORKED = 100
# Pcapng files of a round that may be at fault, and the most frames of each.
SPOILED, SHORT = 20, 30
# The longest of these files, in nanoseconds, over which it is probed.
PROBED = 3600 * 10**9


def unrelated(r, link, unit):
    """Frames that don't regard what the router does."""
    seconds = 1_700_000_000
    for _ in range(FEW):
        seconds += r.choice([-1, 0, 0, 1])
        yield seconds * 10**9 + r.randrange(10**9 // unit) * unit, framed(r, link, packet(r))


def frames(r, text, link, unit, size=1):
    """Frames that mostly fit what a router with rounds of a size does."""
    try:
        site = Site(text.encode())
    except rules.Fault:
        return unrelated(r, link, unit)
    if r.random() < 0.1:
        return unrelated(r, link, unit)
    hurried = r.random() < 0.05
    return Talk(r, site, link, unit, hurried, size).frames(MANY if hurried else FEW)


def large_frames(r, text, link, unit, size=1):
    """Frames of which many are large, where there is a site."""
    try:
        return large.frames(r, Site(text.encode()), link, unit, size)
    except rules.Fault:
        return unrelated(r, link, unit)


def capture(r, text, path, make=frames):
    link, order, unit = r.choice([1, 1, 101]), r.choice("<>"), r.choice([1, 1, 1000])
    write_records(path, link, make(r, text, link, unit), order, unit)


def write_records(path, link, pairs, order="<", unit=1):
    """A capture of pairs of a moment and octets."""
    with open(path, "wb") as file:
        magic = 0xA1B23C4D if unit == 1 else 0xA1B2C3D4
        file.write(struct.pack(order + "IHHIIII", magic, 2, 4, 0, 0, 0, link))
        for moment, octets in pairs:
            seconds, rest = divmod(moment, 10**9)
            file.write(struct.pack(order + "IIII", seconds, rest // unit, len(octets), 9) + octets)


def run(*command):
    return subprocess.run(command, capture_output=True, text=True).stdout


def write(path, text):
    with open(path, "w") as file:
        file.write(text)


def frames_before(path, read=frames_of):
    """The frames of a capture that are before its fault, if it has one."""
    frames = []
    try:
        frames += read(path)
    except CaptureFault:
        pass
    return frames


def some_frames(r, path):
    """Some of a capture's frames in a row, now and then as if they were of the other link."""
    frames = list(frames_of(path))
    at = r.randrange(len(frames) + 1)
    return [(moment, link if r.random() < 0.9 else r.choice([1, 101]), octets)
            for moment, link, octets in frames[at:at + r.randrange(SHORT)]]


def write_octets(path, octets):
    with open(path, "wb") as file:
        file.write(octets)


class Input(NamedTuple):
    """A capture and its format, and whether large packets are split."""
    path: str
    format: Format = Format.CLASSIC
    split: bool = False

    def words(self):
        word, interfaces = self.format.value
        more = () if self.format is Format.CLASSIC else ("--format", word, "--interfaces", interfaces)
        return "--in", self.path, *more, *(("--split", "on") if self.split else ())

    def read(self, path):
        return reader_of(self.format)(path)


class Round:
    """The files of a round, and the program."""

    def __init__(self, program, folder):
        self.program, self.end = program, None
        names = ("settings.toml", "capture.pcap", "capture.pcapng", "ours.pcap", "plain.pcap")
        self.settings, self.capture, self.blocks, self.ours, self.theirs = (
            os.path.join(folder, name) for name in names)
        self.input = Input(self.capture)

    def take_capture(self, *parts):
        """Makes a capture, which is replayed from now on."""
        self.input = Input(self.capture)
        capture(*parts[:2], self.capture, *parts[2:])

    def take_blocks(self, r, octets):
        """A pcapng file is replayed from now on."""
        self.input = Input(self.blocks, r.choice([Format.NG, Format.NG_VLANS]))
        write_octets(self.blocks, octets)

    def words(self, *more):
        """The words of a replay; there is no output yet."""
        for name in (self.ours, self.theirs):
            if os.path.exists(name):
                os.remove(name)
        return "replay", "--settings", self.settings, *self.input.words(), "--out", self.ours, *more

    def same_replay(self):
        ours = run(self.program, *self.words())
        theirs = plain.said(plain.replay, self.settings, self.input.path, self.theirs, plain.played, self.input.read,
                            self.input.split)
        return ours == theirs and contents(self.ours) == contents(self.theirs)

    def same_show(self):
        return run(self.program, "show", "--in", self.capture) == plain.said(plain.show, self.capture)

    def same_in_blocks(self, r):
        """Whether the capture's frames end in blocks as they do in records, where interfaces may be VLANs."""
        made = written(r, frames_of(self.capture))
        self.take_blocks(r, made.octets())
        read = made.frames(self.input.format is Format.NG_VLANS)
        in_blocks = run(self.program, *self.words()), contents(self.ours)
        self.input, blocks = Input(self.capture), self.input
        write_records(self.capture, read[0][1] if read else 1, [(moment, octets) for moment, _, octets in read])
        in_records = run(self.program, *self.words()), contents(self.ours)
        self.input = blocks
        return in_blocks == in_records and self.same_replay()

    def lasts_long(self):
        """Whether the frames of what is replayed take longer than the plain router can probe."""
        moments = [moment for moment, _, _ in frames_before(self.input.path, self.input.read)]
        return bool(moments) and moments[-1] - moments[0] > PROBED

    def same_spoiled(self, r, text):
        """Whether pcapng files end alike that have some of the capture's frames, and may be at fault.

        Where a file lasts long, at times a million seconds, nobody is probed.
        """
        for _ in range(SPOILED):
            self.take_blocks(r, spoiled(r, some_frames(r, self.capture)))
            write(self.settings, text.replace("probe = true", "probe = false") if self.lasts_long() else text)
            if not self.same_replay():
                return False
        write(self.settings, text)
        return True

    def same_settings(self, r):
        text = spoiled_settings(r)
        try:
            tomllib.loads(text)
        except tomllib.TOMLDecodeError:
            return True
        write(self.settings, text)
        return self.same_replay()

    # With workers.

    def ended(self, workers, size):
        """What the program ends with; a round has 256 frames where the words don't say a size."""
        more = "--workers", str(workers), *(("--round", str(size)) if size != 256 else ())
        done = subprocess.run([self.program, *self.words(*more)], capture_output=True)
        return done.returncode, done.stdout.decode(errors="replace"), existing(self.ours)

    def is_lawful(self, workers, size):
        """Whether the program ends as its own numbers say; else it is said why not."""
        self.end = self.ended(workers, size)
        found = rounds.fault(self.settings, self.input.path, size, self.end, self.input.read, self.input.split)
        if found:
            print(f"with {workers} workers and rounds of {size} the report is\n{self.end[1]}but\n{found}", end="")
        return not found

    def worked(self):
        """Whether worked frames end in one of the ways that are worked out, each time."""
        write(self.settings, worked_rounds.SETTINGS)
        write_octets(self.capture, worked_rounds.CAPTURE)
        wanted, size = worked_rounds.ends(), worked_rounds.SIZE
        return all(self.is_lawful(worked_rounds.WORKERS, size) and self.end in wanted for _ in range(WORKED))

    def split(self):
        """Large packets of what is replayed are split."""
        self.input = self.input._replace(split=True)

    def same_split(self, r, text):
        """Whether large packets that are split end alike, in either format."""
        self.take_capture(r, text, large_frames)
        self.split()
        if not self.same_replay():
            return False
        self.take_blocks(r, written(r, frames_before(self.capture)).octets())
        self.split()
        return self.same_replay()

    def lawful_rounds(self, r, text, make=frames, split=False):
        """Whether a replay of frames that fit rounds of a size ends as it may."""
        size = r.choice([*SIZES, r.randint(1, 4096)])
        self.take_capture(r, text, lambda *parts: make(*parts, size))
        if r.random() < 0.3:
            self.take_blocks(r, written(r, frames_before(self.capture)).octets())
        if r.random() < 0.2:
            os.truncate(self.input.path, max(0, os.path.getsize(self.input.path) - r.randint(1, 200)))
        self.input = self.input._replace(split=split)
        return self.is_lawful(r.randint(1, 16), size)

    def agrees(self, r):
        text = settings(r)
        write(self.settings, text)
        self.take_capture(r, text)
        return (self.same_replay() and self.same_show() and self.same_in_blocks(r)
                and self.same_spoiled(r, text) and self.lawful_rounds(r, text)
                and self.same_split(r, text) and self.lawful_rounds(r, text, large_frames, True)
                and all(self.same_settings(r) for _ in range(40)))

    def left(self, words):
        """Leaves the files of what differs, and ends."""
        print(f"{words}, with {' '.join(os.path.basename(word) for word in self.input.words())}")
        for name in (self.settings, self.capture, self.blocks):
            if os.path.exists(name):
                os.replace(name, os.path.basename(name))
        sys.exit(1)


def main(kind=Round):
    count = int(sys.argv[2]) if len(sys.argv) > 2 else 20
    seed = int(sys.argv[3]) if len(sys.argv) > 3 else 1
    first = int(sys.argv[4]) if len(sys.argv) > 4 else 0
    with tempfile.TemporaryDirectory() as folder:
        one = kind(sys.argv[1], folder)
        if not one.worked():
            one.left("worked frames differ")
        for i in range(first, first + count):
            if not one.agrees(random.Random(f"{seed} {i}")):
                one.left(f"round {i} of seed {seed} differs")
    print(f"{count} rounds agree")


if __name__ == "__main__":
    main()
