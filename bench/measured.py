#!/usr/bin/env python3
"""Runs a command, and prints items a second, user and system time and the greatest memory.

usage: measured.py NAME ITEMS OUT COMMAND..
The command's output goes to the file OUT. With RUNS in the environment it runs so often, and the run that took the least
processor time counts.
"""
import os
import subprocess
import sys
import time
from typing import NamedTuple


class Run(NamedTuple):
    """How long a run took, also in itself and in the system, in seconds; its memory in MiB; and its status."""
    took: float
    user: float
    system: float
    memory: float
    status: int

    def text(self, items):
        return (f"{int(items) / self.took:,.0f} a second, {self.took:.2f} s, "
                f"user {self.user:.2f} s, system {self.system:.2f} s, "
                f"at most {self.memory:.1f} MiB, status {self.status}")


def measured(out, command):
    """Runs a command whose output goes to a file."""
    start = time.time()
    with open(out, "wb") as file:
        process = subprocess.Popen(command, stdout=file, stderr=subprocess.DEVNULL)
        _, status, used = os.wait4(process.pid, 0)
    took = time.time() - start
    return Run(took, used.ru_utime, used.ru_stime, used.ru_maxrss / 1024, os.waitstatus_to_exitcode(status))


def last_line(path):
    """The last line of a report, or nothing."""
    with open(path, "rb") as file:
        file.seek(max(0, os.path.getsize(path) - 200))
        return " ".join(file.read().decode().splitlines()[-1:])


def tell_best(found, lines, first, items):
    """Prints the best of the runs of each name; and what is said of the first one, and of each of which other things are."""
    for name, runs in found.items():
        best = min(runs, key=lambda run: run.took)._replace(memory=max(run.memory for run in runs))
        print(f"  {name}: {best.text(items)}")
        if name == first or lines[name] != lines[first]:
            print(f"    {lines[name]}")


def main():
    name, items, out, *command = sys.argv[1:]
    runs = [measured(out, command) for _ in range(int(os.environ.get("RUNS", "1")))]
    print(f"{name}: {min(runs, key=lambda run: run.user + run.system).text(items)}")


if __name__ == "__main__":
    main()
