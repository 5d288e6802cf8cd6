#!/usr/bin/env python3
"""A plain router with forwarders, and a judge of what a router with forwarders says and writes.

usage: rounds.py replay .. | rounds.py show ..
Its words are those of the program. With workers the frames are cut into rounds. A round's seconds and control messages
extend the journal in order; each data packet is decided by the journal's first n entries, n being the length before the
first frame or behind one of the further seconds and messages; then all that is noticed is noted at the last frame's
moment. As a program it takes any of these numbers for each data packet, and without workers it is the plain router.
"""
import functools
import os
import random
import re
import sys
import tempfile
from typing import NamedTuple

import plain
from captures import CaptureFault, frames_of, output_record
from captures_ng import reader_of
from commands import Replay, Show, command_of
from differing import difference, output_lines
from router import Router
from wire import existing

# A round is closed by the frame that brings its octets past these.
MOST_OCTETS = 16 * 2**20
NUMBER = re.compile(r"\d+ [\d.]+ n=(\d+) ")


class Frame(NamedTuple):
    number: int
    moment: int
    link: int
    octets: bytes


class Told(NamedTuple):
    """Lines, and packets with their moments."""
    lines: list
    packets: list


# Rounds.


def is_full(size, count, octets):
    """Whether so many frames of so many octets close a round."""
    return count == size or octets > MOST_OCTETS


def cut(frames, size):
    """The frames of each round; a capture's fault closes the round that is open and comes after it."""
    part, octets, fault = [], 0, None
    try:
        for number, frame in enumerate(frames, 1):
            part.append(Frame(number, *frame))
            octets += len(part[-1].octets)
            if is_full(size, len(part), octets):
                yield part
                part, octets = [], 0
    except CaptureFault as found:
        fault = found
    if part:
        yield part
    if fault:
        raise fault


class Round:
    """A round: its seconds and control messages have extended the journal, its data packets wait."""

    def __init__(self, router, frames):
        self.router, self.last = router, frames[-1].moment
        self.ends, self.events, self.deciders = [], [], {}
        for frame in frames:
            self.play_seconds(frame.moment)
            if frame.number == frames[0].number:
                self.ends = [len(router.journal)]
            self.events.append(self.heard(frame) if router.is_control(frame.link, frame.octets) else frame)

    def play_seconds(self, moment):
        for packets in self.router.seconds(moment):
            self.events.append(Told([], packets))
            self.ends.append(len(self.router.journal))

    def heard(self, frame):
        """What is told of a control message."""
        known = len(self.router.journal)
        verdict, packets, _ = self.router.judged(*frame[1:])
        self.ends.append(len(self.router.journal))
        return self.told(frame, known, verdict, packets)

    def told(self, frame, known, verdict, packets):
        return Told([plain.frame_line(frame.number, frame.moment, known, verdict)],
                    [(frame.moment, packet) for packet in packets])

    def decided(self, frame, known):
        """What is told of a data packet by so many entries, and what is noticed."""
        if known not in self.deciders:
            self.deciders[known] = Router(self.router.as_set, self.router.journal[:known])
        verdict, packets, notices = self.deciders[known].judged(*frame[1:])
        return self.told(frame, known, verdict, packets), notices

    def all_told(self, choose):
        """The lines and packets, where a call chooses the number of each data packet by its frame and the ends."""
        lines, packets, noticed = [], [], []
        for event in self.events:
            if type(event) is Frame:
                event, notices = self.decided(event, choose(event.number, self.ends))
                noticed += notices
            lines += event.lines
            packets += event.packets
        return Told(lines, packets + self.noted(noticed))

    def noted(self, noticed):
        """What is sent for all that was noticed."""
        return [(self.last, packet) for notice in noticed for packet in self.router.note(self.last, notice)]


def played(router, frames, file, size, choose, kind=Round):
    """Says the lines of each round and one at the end, and writes what is sent."""
    count = written = 0
    for part in cut(frames, size):
        lines, packets = kind(router, part).all_told(choose)
        print(*lines, sep="\n")
        for moment, packet in packets:
            file.write(output_record(moment, packet))
        count, written = count + len(part), written + len(packets)
    print(plain.last_line(count, written, router))


def replay(settings, capture, output, *how, read=frames_of, split=False):
    """Replays a capture by rounds of a size, with a choice of numbers."""
    return plain.replay(settings, capture, output, lambda *parts: played(*parts, *how), read, split)


class Stepwise(Router):
    """A router with rounds that takes frame by frame: each data packet is decided by what the journal then has."""

    def __init__(self, site, size):
        super().__init__(site)
        self.size, self.count, self.octets, self.noticed = size, 0, 0, []

    def take(self, moment, link, frame):
        verdict, packets, notices = self.judged(moment, link, frame)
        self.count, self.octets, self.noticed = self.count + 1, self.octets + len(frame), self.noticed + notices
        return verdict, packets + (self.closed(moment) if is_full(self.size, self.count, self.octets) else [])

    def closed(self, moment):
        """What is sent where the round ends."""
        noticed, self.count, self.octets, self.noticed = self.noticed, 0, 0, []
        return [sent for notice in noticed for sent in self.note(moment, notice)]


# Choices of numbers: each is told a frame and the ends of its round.


class Unforced(Exception):
    """A data packet has several numbers that it may have."""


def first(_, ends):
    return ends[0]


def last(_, ends):
    return ends[-1]


def at_random(r):
    """Any of the ends; of a frame the same ones each time."""
    seed = r.random()
    return lambda number, ends: random.Random(f"{seed} {number}").choice(ends)


def forced(number, ends):
    if len(set(ends)) > 1:
        raise Unforced(f"frame {number} may have n={' or '.join(map(str, sorted(set(ends))))}")
    return ends[0]


# The judge.


class Unlawful(Exception):
    """A line has a number that its frame can't have, or there is none."""


def reported(report):
    """The choice that a report says."""
    lines = report.split("\n")

    def choose(number, ends):
        found = NUMBER.match(lines[number - 1]) if number <= len(lines) else None
        if found is None:
            raise Unlawful(f"no line of frame {number}")
        if int(found[1]) not in ends:
            raise Unlawful(f"frame {number} has n={found[1]}, which is none of {sorted(set(ends))}")
        return int(found[1])
    return choose


def fault(settings, capture, size, end, read=frames_of, split=False):
    """Why no router with rounds of that size ends so, with a status, a report and an output or None; or no words."""
    status, report, output = end
    with tempfile.TemporaryDirectory() as folder:
        path = os.path.join(folder, "out")
        try:
            call = functools.partial(replay, read=read, split=split)
            wanted = *plain.ended(call, settings, capture, path, size, reported(report)), existing(path)
        except Unlawful as found:
            return f"  {found}\n"
    if wanted == end:
        return ""
    return "  by its numbers\n" + "".join([
        difference("report", wanted[1].split("\n"), report.split("\n")),
        difference("out", output_lines(wanted[2]), output_lines(output)),
        difference("status", [str(wanted[0])], [str(status)])])


# The program.


def main():
    command = command_of(sys.argv[1:])
    if type(command) is Show:
        return plain.show(command.input)
    if type(command) is not Replay:
        print("usage")
        return 1
    read = reader_of(command.format)
    if command.workers == 0:
        return plain.replay(*command[:3], read=read, split=command.split)
    return replay(*command[:3], command.round, at_random(random.Random()), read=read, split=command.split)


if __name__ == "__main__":
    sys.exit(main())
