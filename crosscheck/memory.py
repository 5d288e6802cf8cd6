#!/usr/bin/env python3
"""Refuses each allocation of the program once, in runs over examples, large packets, a trial; it needs a C compiler.

usage: memory.py PROGRAM
A run must end with status 5, and what it said and wrote must be a front of the right report and file, with no packet
whose frame wasn't said; or it must answer as if nothing had been refused. Replays are held against the plain router,
without workers, and with two in rounds of four frames by the numbers that they say: of an allocation that a forwarder is
refused nothing may be seen but these. Other commands are held against what the program says where nothing is refused.
It ends with status 1 where a run is wrong.
"""
import itertools
import os
import subprocess
import sys
import tempfile

from captures_ng import reader_of
from commands import Format
from examples import EXAMPLES, capture_of
from fronts import Lawful, is_front
from limits import MILLI, TEXTS, large, shared
from row_runs import capture_of as captured
from wire import existing

HERE = os.path.dirname(os.path.abspath(__file__))
MEMORY, SIZE = 5, 4


class Same:
    """The one end that a command has."""

    def __init__(self, end):
        self.end = end

    def has_end(self, end):
        return end == self.end

    def has_front(self, report, output):
        return is_front(report, output, self.end)

    def has_reported(self, report, output):
        return True


class Refusals:
    """A command of the program, its output, and what judges its ends: what it ends with itself, if nothing is given."""

    def __init__(self, name, shim, command, output, lawful=None):
        self.name, self.shim, self.command, self.output = name, shim, command, output
        self.lawful = lawful or Same(self.run(0)[0])

    def run(self, number):
        if os.path.exists(self.output):
            os.remove(self.output)
        environment = dict(os.environ, LD_PRELOAD=self.shim, REFUSE=str(number))
        done = subprocess.run(self.command, env=environment, capture_output=True)
        report = done.stdout.decode(errors="replace")
        return (done.returncode, report, existing(self.output)), bool(done.stderr)

    def is_right(self, status, report, file):
        if status == MEMORY:
            return self.lawful.has_front(report, file) and self.lawful.has_reported(report, file)
        return self.lawful.has_end((status, report, file))

    def refuse_each(self):
        """Refuses one after another, until a run has fewer."""
        passed = 0
        for number in itertools.count(1):
            end, was_refused = self.run(number)
            if not self.is_right(*end):
                sys.exit(f"{self.name}: allocation {number} refused, and wrong behind status {end[0]}")
            if not was_refused:
                print(f"{self.name}: each of {number - 1} allocations refused once, {passed} without effect", flush=True)
                return
            passed += end[0] != MEMORY


def halves(folder):
    """Settings, and a capture of large packets to be split, of which the first is asked for, and the last too large."""
    frames = [(0, large(1500)), (100 * MILLI, shared("reply")), (200 * MILLI, large(1500)), (300 * MILLI, large(2901))]
    names = [os.path.join(folder, name) for name in ("settings.toml", "in.pcap")]
    for name, octets in zip(names, (TEXTS["tenant"].encode(), captured(frames))):
        with open(name, "wb") as file:
            file.write(octets)
    return names


def replays(program, shim, output, name, files, more, **how):
    """A replay without workers, and with two."""
    replay = [program, "replay", "--settings", files[0], "--in", files[1], "--out", output, *more]
    by_workers = [*replay, "--workers", "2", "--round", str(SIZE)]
    yield Refusals(f"replay of {name}", shim, replay, output, Lawful(*files, **how))
    yield Refusals("the same with 2 workers", shim, by_workers, output, Lawful(*files, 2, SIZE, **how))


def audits(program, shim, output, name, files, sent):
    """An audit of what is sent, by the nonces of the settings and by those that are lifted."""
    audit = [program, "audit", "--settings", files[0], "--in", files[1], "--sent", sent]
    yield Refusals(f"audit of {name}", shim, audit, output)
    yield Refusals("the same by lifted nonces", shim, [*audit, "--nonces", "sent"], output)


def refusals(program, folder):
    shim, output = os.path.join(folder, "refuse.so"), os.path.join(folder, "out.pcap")
    subprocess.run(["cc", "-shared", "-fPIC", "-o", shim, os.path.join(HERE, "refuse.c"), "-ldl"], check=True)
    for name in "site", "cache", "ticks", "echoes", "uplink", "ng":
        example = os.path.join(EXAMPLES, name)
        settings, (capture, more) = os.path.join(example, "settings.toml"), capture_of(example)
        read = reader_of(Format.NG if more else Format.CLASSIC)
        yield from replays(program, shim, output, name, (settings, capture), more, read=read)
        yield Refusals(f"show of {name}", shim, [program, "show", "--in", capture], output)
        if not more:
            yield from audits(program, shim, output, name, (settings, capture), os.path.join(example, "expected.pcap"))
    yield from replays(program, shim, output, "large packets", halves(folder), ("--split", "on"), split=True)
    yield Refusals("trial 3", shim, [program, "trial", "3"], output)


def main():
    with tempfile.TemporaryDirectory() as folder:
        for one in refusals(os.path.abspath(sys.argv[1]), folder):
            one.refuse_each()


if __name__ == "__main__":
    main()
