#!/usr/bin/env python3
"""Replays the examples, by the plain router or by a program: each must end as its `expected` files say.

usage: examples.py [PROGRAM]
Each is replayed without workers, and with two in rounds of one frame, which change nothing. It prints a line an
example, and of one that differs what is wanted and what came; and it ends with status 1 where one does.
"""
import glob
import os
import sys

from row_runs import REPLAY, Row, Run
from rows import Plain, Program, judged
from wire import contents

EXAMPLES = os.path.join(os.path.dirname(os.path.dirname(os.path.abspath(__file__))), "examples")
WAYS = REPLAY, f"{REPLAY} --workers 2 --round 1"
# Where the one name isn't there the other one is: the name of the capture, and what the words say of it.
CAPTURE, BLOCKS = ("capture.pcap", ()), ("capture.pcapng", ("--format", "ng"))


def capture_of(folder):
    """The path of an example's capture, and the words of its format."""
    name, words = next(one for one in (CAPTURE, BLOCKS) if os.path.exists(os.path.join(folder, one[0])))
    return os.path.join(folder, name), words


def example(folder):
    """An example as a row."""
    def octets(name):
        return contents(os.path.join(folder, name))
    capture, more = capture_of(folder)
    files = {"settings": octets("settings.toml"), "in": contents(capture)}
    report, output = octets("expected.txt").decode(), octets("expected.pcap")
    runs = [Run([*words.split(), *more], files, 0, report, output) for words in WAYS]
    return Row("examples", os.path.basename(folder), "", runs)


def main():
    judge, failed = Program(sys.argv[1]) if len(sys.argv) > 1 else Plain(), 0
    examples = [example(folder) for folder in sorted(glob.glob(os.path.join(EXAMPLES, "*")))]
    for row in examples:
        _, found = judged(judge, row)
        print(f"{'DIFFERS' if found else 'ok     '} {row.name}\n{found}", end="", flush=True)
        failed += bool(found)
    print(f"{len(examples)} examples, {failed} differ; {len(examples) * len(WAYS)} runs")
    sys.exit(failed > 0)


if __name__ == "__main__":
    main()
