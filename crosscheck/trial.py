#!/usr/bin/env python3
"""The input of `trial N` as files, and the line that it says, by the plain router, by known hashes, and by a program.

usage: trial.py [PROGRAM] | trial.py --write N FOLDER
A program must say the line to `trial N`, and with `replay` over the files count as many and write a file of that hash.
It prints one line for each N, and ends with status 1 where one differs; with --write it makes settings.toml and
capture.pcap in the folder, and nothing else. The plain router scans, so the largest N goes by its known hash alone.
"""
import os
import subprocess
import sys
import tempfile

import plain
from captures import output_header, output_record
from choice import hash_of
from row_runs import START
from wire import contents, udp_packet

SITE = """[[locator]]
address = "198.51.100.1"
[[attachment]]
vlan = 0
iid = 0
[[database]]
iid = 0
prefix = "192.168.0.0/16"
"""
SOURCE, ELSEWHERE = bytes([192, 168, 0, 1]), bytes([21, 0, 0, 1])
PLAIN, LARGEST = (1, 2, 3, 10, 254, 255, 256, 2000), 50_000
KNOWN = {3: "8e6dbc18", 2000: "00cf778b", LARGEST: "45ce7d18"}


def address(i, last):
    """An address of the prefix that mapping i maps."""
    return (20 * 2**24 + 256 * i + last).to_bytes(4, "big")


def mapping(i):
    return (f'[[mapping]]\niid = 0\nprefix = "{".".join(map(str, address(i, 0)))}/24"\n[[mapping.locator]]\n'
            f'address = "203.0.113.{1 + i % 254}"\npriority = 1\nweight = 1\n')


def settings(count):
    return SITE + "".join(map(mapping, range(count)))


def capture(count):
    """Frames a microsecond apart, each but the last to a mapped prefix."""
    dests = [address(7 * j % count, 1) for j in range(count)] + [ELSEWHERE]
    return output_header() + b"".join(
        output_record(START + 1000 * j, udp_packet(SOURCE, dest, (1000, 2000), b"", False))
        for j, dest in enumerate(dests))


def write(count, folder):
    """Makes the two files, and tells their names."""
    names = [os.path.join(folder, name) for name in ("settings.toml", "capture.pcap")]
    with open(names[0], "w") as file:
        file.write(settings(count))
    with open(names[1], "wb") as file:
        file.write(capture(count))
    return names


def line(count, counts, value):
    return f"trial {count} {counts} hash={value}\n"


def replayed(count, report, output):
    """The line that a replay comes to, by the last line of its report and by its output file."""
    last = report.splitlines()[-1] if report else ""
    return line(count, last.removeprefix("end "), f"{hash_of(contents(output)):08x}")


def run(*command):
    """What a program says, and its status where that isn't 0."""
    done = subprocess.run(command, capture_output=True, text=True)
    return done.stdout + f"status {done.returncode}\n" * (done.returncode != 0)


def lines(program, count, folder):
    """The line for so many mappings by all who know it, with their names."""
    source, captured = write(count, folder)
    outputs = [os.path.join(folder, name) for name in ("plain.pcap", "out.pcap")]
    if count in PLAIN:
        yield "plain router", replayed(count, plain.said(plain.replay, source, captured, outputs[0]), outputs[0])
    if count in KNOWN:
        yield "known", line(count, f"frames={count + 1} written={count} entries={count}", KNOWN[count])
    if program:
        yield "trial", run(program, "trial", str(count))
        words = "--settings", source, "--in", captured, "--out", outputs[1]
        yield "replay", replayed(count, run(program, "replay", *words), outputs[1])


def agree(program, count):
    """Tells the line where all agree on it, else what each says."""
    with tempfile.TemporaryDirectory() as folder:
        found = dict(lines(program, count, folder))
    first, *others = found.values()
    counts = f"trial {count} frames={count + 1} written={count} entries={count} hash="
    is_same = first.startswith(counts) and all(other == first for other in others)
    print(f"ok      {first}" if is_same else "".join(
        f"DIFFERS {name}: {text}" for name, text in found.items()), end="", flush=True)
    return is_same


def main():
    if sys.argv[1:2] == ["--write"]:
        write(int(sys.argv[2]), sys.argv[3])
        return
    program = os.path.abspath(sys.argv[1]) if len(sys.argv) > 1 else None
    counts = [*PLAIN, LARGEST] if program else PLAIN
    sys.exit(not all([agree(program, count) for count in counts]))


if __name__ == "__main__":
    main()
