#!/usr/bin/env python3
"""Replays captures beside changes of own locators, and prints what these cost.

usage: changes.py PROGRAM FOLDER FRAMES RUNS | changes.py --write FOLDER FRAMES SEED
With --write it makes settings and captures in the folder. frames.pcap has so many packets of encapsulate.py; without.toml
are its settings, with.toml has 256 changes besides, all behind the last frame. In many.toml are 50,000 mappings, which
name 64 locators, and 256 changes ten seconds apart, so that at each all of these are told of the one prefix; in wide.toml
the same of 64 prefixes; in none.toml there is no change. pause.pcap has a frame in front of all changes and one behind.

Else it replays them, each the best of some runs that go by turns, by the time that they take of a processor. It ends
with status 1 where not as many are told as named, where what is wanted isn't kept, or where the outputs of the first two
differ.
"""
import os
import struct
import subprocess
import sys

from measured import last_line, measured
from packets import udp_packet

START, REST = 1_700_000_000, 10
MAPPINGS, LOCATORS, PREFIXES, CHANGES = 50_000, 64, 64, 256
HEADER = struct.pack("<IHHIIII", 0xA1B2C3D4, 2, 4, 0, 0, 262144, 101)
HERE = os.path.dirname(os.path.abspath(__file__))
# What is wanted: percents that changes to come may cost, and milliseconds of one that is told to 64 locators.
MOST_MORE, MOST_TOOK = 3, 50


def changes(seconds):
    """Changes of the one own locator, which is up before and behind each."""
    return "".join(f'[[change]]\nat = {START + second}\naddress = "192.0.2.1"\nup = true\n' for second in seconds)


def site(prefixes):
    return ('[[locator]]\naddress = "192.0.2.1"\n[[attachment]]\nvlan = 0\niid = 0\n' + "".join(
        f'[[database]]\niid = 0\nprefix = "10.1.{i}.0/24"\nversion = 5\n' for i in range(prefixes)))


def mappings():
    return "".join(
        f'[[mapping]]\niid = 0\nprefix = "10.{2 + i // 65536}.{i // 256 % 256}.{i % 256}/32"\n'
        f'[[mapping.locator]]\naddress = "198.51.100.{1 + i % LOCATORS}"\n' for i in range(MAPPINGS))


def text(path):
    with open(path) as file:
        return file.read()


def write(path, *parts):
    with open(path, "w") as file:
        file.writelines(parts)


def write_all(folder, frames, seed):
    subprocess.run([sys.executable, os.path.join(HERE, "encapsulate.py"), folder, str(frames), str(seed), "raw"], check=True)
    os.rename(f"{folder}/capture.pcap", f"{folder}/frames.pcap")
    os.rename(f"{folder}/settings.toml", f"{folder}/without.toml")
    write(f"{folder}/with.toml", text(f"{folder}/without.toml"), changes(range(10**7, 10**7 + CHANGES)))
    seconds = [REST * i for i in range(1, CHANGES + 1)]
    for name, prefixes, some in ("none", 1, []), ("many", 1, seconds), ("wide", PREFIXES, seconds):
        write(f"{folder}/{name}.toml", site(prefixes), mappings(), changes(some))
    packet = udp_packet(bytes([10, 1, 0, 5]), bytes([10, 2, 0, 9]), (1000, 2000), b"", False)
    with open(f"{folder}/pause.pcap", "wb") as file:
        file.write(HEADER)
        for second in 0, seconds[-1] + 1:
            file.write(struct.pack("<IIII", START + second, 0, len(packet), len(packet)) + packet)


class Bench:
    """What the best runs took of a processor, and how many packets each wrote."""

    def __init__(self, program, folder):
        self.program, self.folder, self.took, self.written, self.wrong = program, folder, {}, {}, []

    def replay(self, name, capture):
        words = ["replay", "--settings", f"{self.folder}/{name}.toml", "--in", f"{self.folder}/{capture}.pcap",
                 "--out", f"{self.folder}/{name}.out"]
        run = measured(f"{self.folder}/{name}.txt", [self.program, *words])
        took = run.user + run.system
        self.took[name] = min(took, self.took.get(name, took))
        line = last_line(f"{self.folder}/{name}.txt")
        self.want(run.status == 0 and line.startswith("end "), f"{name} ended with status {run.status}: {line}")
        self.written[name] = int(line.split("written=")[1].split()[0]) if "written=" in line else None

    def want(self, good, what):
        if not good and what not in self.wrong:
            self.wrong.append(what)

    def same(self, *names):
        found = [open(f"{self.folder}/{name}.out", "rb").read() for name in names]
        self.want(found[0] == found[1], f"the outputs of {' and '.join(names)} differ")

    def tell_behind(self, frames):
        more = 100 * (self.took["with"] / self.took["without"] - 1)
        print(f"  without changes {frames / self.took['without']:,.0f} frames a second, with {CHANGES} behind the last "
              f"{frames / self.took['with']:,.0f}: {more:+.1f} % of time, of which {MOST_MORE} are wanted at most")
        self.want(more <= MOST_MORE, "changes to come cost too much")

    def tell_told(self, name, prefixes):
        took = 1000 * (self.took[name] - self.took["none"]) / CHANGES
        told = LOCATORS * prefixes
        print(f"  a change that {told} packets tell takes {took:.1f} ms" + (
            f", of which {MOST_TOOK} are wanted at most" if prefixes == 1 else ""))
        self.want(prefixes > 1 or took <= MOST_TOOK, "a change takes too long")
        self.want(self.written[name] == self.written["none"] + CHANGES * told, f"{self.written[name]} were written by {name}")


def main():
    if sys.argv[1] == "--write":
        return write_all(sys.argv[2], int(sys.argv[3]), int(sys.argv[4]))
    program, folder, frames, runs = *sys.argv[1:3], int(sys.argv[3]), int(sys.argv[4])
    bench = Bench(program, folder)
    for _ in range(runs):
        for name, capture in ("without", "frames"), ("with", "frames"), ("none", "pause"), ("many", "pause"), ("wide", "pause"):
            bench.replay(name, capture)
        bench.same("without", "with")
    bench.tell_behind(frames)
    bench.tell_told("many", 1)
    bench.tell_told("wide", PREFIXES)
    print(*(f"  wrong: {what}\n" for what in bench.wrong), sep="", end="")
    return int(bool(bench.wrong))


if __name__ == "__main__":
    sys.exit(main())
