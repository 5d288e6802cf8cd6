#!/usr/bin/env python3
"""Replays captures made from a number, and lets tshark read each Map-Request and Map-Reply that is written.

usage: sent.py PROGRAM [ROUNDS [SEED]]
Each round makes settings and a capture, as compare.py has them, and gives the output to requests.py, replies.py and
solicits.py.
Where the settings are spoiled there is none. It ends with status 1 where one of these finds fault.
"""
import collections
import os
import random
import re
import subprocess
import sys
import tempfile

from compare import capture, write
from makers import settings

HERE = os.path.dirname(os.path.abspath(__file__))
COUNT = re.compile(r"^(\d+) (\w+), (\d+) at fault$", re.M)


def readings(program, folder, r):
    """What each reader says of the output of a round, with its status."""
    names = [os.path.join(folder, name) for name in ("settings.toml", "capture.pcap", "out.pcap")]
    text = settings(r)
    write(names[0], text)
    capture(r, text, names[1])
    subprocess.run([program, "replay", "--settings", names[0], "--in", names[1], "--out", names[2]],
                   stdout=subprocess.DEVNULL)
    if not os.path.exists(names[2]):
        return
    for script, *words in ["requests.py", names[2]], ["replies.py", *names], ["solicits.py", *names]:
        command = [sys.executable, "-B", os.path.join(HERE, script), *words]
        done = subprocess.run(command, capture_output=True, text=True)
        yield done.returncode, done.stdout + done.stderr * (done.returncode != 0)
    os.remove(names[2])


def main():
    program = os.path.abspath(sys.argv[1])
    count = int(sys.argv[2]) if len(sys.argv) > 2 else 20
    seed = int(sys.argv[3]) if len(sys.argv) > 3 else 1
    counts, failed = collections.Counter(), 0
    with tempfile.TemporaryDirectory() as folder:
        for i in range(count):
            for status, said in readings(program, folder, random.Random(f"{seed} {i}")):
                counts.update({word: int(number) for number, word, _ in COUNT.findall(said)})
                print(f"round {i} of seed {seed}\n{said}" * (status != 0), end="", flush=True)
                failed += status != 0
    print(", ".join(f"{counts[word]} {word}" for word in ("requests", "replies", "solicits"))
          + f", {failed} outputs at fault")
    sys.exit(failed > 0)


if __name__ == "__main__":
    main()
