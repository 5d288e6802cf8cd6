#!/usr/bin/env python3
"""Replays one capture many times with four workers, judges each end that comes, and counts what depends on threads.

usage: repeated.py PROGRAM [RUNS]
It is run 10,000 times, if no number is given, with rounds of 16 frames. In the second and the third round packets come
before, between and behind a reply that is learned, one that adds nothing, and seconds in which a request is sent again.
It prints how many ends differ, and how many of the packets were decided by more than the length that their round began
with; and it ends with status 1 where an end is none that a router may have.
"""
import collections
import os
import sys
import tempfile

import plain
import rounds
from compare import Round, write
from limits import TEXTS, shared, to
from row_runs import SECOND, capture_of

RUNS, WORKERS, SIZE = 10_000, 4, 16
# Milliseconds between frames in the first round, and in the others; the places of the replies in these.
SHORT, LONG, REPLIES = 10, 200, (18, 37)


def frames():
    """Packets to two addresses by turns, of which one is answered for: a round of misses, and then two within 6 s."""
    packets = shared("packet"), to(bytes([10, 3, 0, 9]))
    for i in range(3 * SIZE):
        moment = SHORT * min(i, SIZE) + LONG * max(i - SIZE, 0)
        yield moment * SECOND // 1000, shared("reply") if i in REPLIES else packets[i % 2]


class Repeated(Round):
    """The files of the runs, and the program."""

    def ends(self, runs):
        """How often each end comes."""
        write(self.settings, TEXTS["tenant"])
        with open(self.capture, "wb") as file:
            file.write(capture_of(list(frames())))
        return collections.Counter(self.ended(WORKERS, SIZE) for _ in range(runs))

    def late(self, report):
        """How many packets are decided by more than the length that their round begins with, and how many there are."""
        chosen, numbers = rounds.reported(report), []

        def choose(number, ends):
            numbers.append((chosen(number, ends), ends[0]))
            return numbers[-1][0]
        plain.ended(rounds.replay, self.settings, self.capture, os.devnull, SIZE, choose)
        return sum(n > first for n, first in numbers), len(numbers)

    def judged(self, runs):
        """Judges each end, and tells what came; the answer is whether all were lawful."""
        ends, counts = self.ends(runs), collections.Counter()
        for end, times in ends.items():
            if found := rounds.fault(self.settings, self.capture, SIZE, end):
                print(f"WRONG, {times} times\n{end[1]}but\n{found}", end="")
                counts["wrong"] += times
            else:
                late, packets = self.late(end[1])
                counts.update(runs=times * (late > 0), late=times * late, packets=times * packets)
        print(f"{runs} runs, {len(ends)} different ends, {counts['wrong']} runs wrong")
        print(f"{counts['late']} of {counts['packets']} packets, in {counts['runs']} runs, "
              "are decided by more than their round began with")
        return not counts["wrong"]


def main():
    with tempfile.TemporaryDirectory() as folder:
        one = Repeated(os.path.abspath(sys.argv[1]), folder)
        sys.exit(not one.judged(int(sys.argv[2]) if len(sys.argv) > 2 else RUNS))


if __name__ == "__main__":
    main()
